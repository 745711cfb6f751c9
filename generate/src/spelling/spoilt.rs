//! Words and lines at the borders of what can be read, and past them.

use crate::rng::Rng;
use script::{MOST_DIGITS_AFTER_POINT, MOST_IN_DECIMAL, NAMES};

/// A decimal around the borders of what can be read, or plainly within them.
pub fn decimal(rng: &mut Rng) -> String {
    let most = MOST_IN_DECIMAL as usize;
    let m = match rng.below(4) {
        0 => most - 1,
        1 => most - 1 - rng.below(1000),
        2 => rng.below(most),
        _ => rng.below(1000),
    };
    let sign = rng.pick(&["", "-"]);
    let zeros = if rng.chance(200) { rng.below(30) } else { 0 };
    let after = rng.below(MOST_DIGITS_AFTER_POINT + 1);
    let digits = format!("{m:0width$}", width = after + 1);
    format!("{sign}{}{}", "0".repeat(zeros), with_point(&digits, after))
}

/// Digits with a point before the last `after` of them, if any.
fn with_point(digits: &str, after: usize) -> String {
    let (whole, fraction) = digits.split_at(digits.len() - after);
    let point = if after > 0 { "." } else { "" };
    format!("{whole}{point}{fraction}")
}

/// Words that are no float, though near to one.
const NO_FLOATS: [&str; 43] = [
    "-",
    "--1",
    "+1",
    ".5",
    "5.",
    "-.5",
    "1.5.",
    "1..5",
    "1e5",
    "1E5",
    "-nan",
    "NaN",
    "Nan",
    "+inf",
    "Inf",
    "infinity",
    "MAX",
    "Max",
    "-Max",
    "x",
    "x3f80000",
    "x3f8000000",
    "X3f800000",
    "x3g800000",
    "0x3f800000",
    "-x3f800000",
    "1,5",
    "1_000",
    "0.5f",
    "x+3f80000",
    "x-3f80000",
    "1\t",
    "1\r",
    "x3f800000\r",
    "\u{663}",
    "½",
    "1\0",
    "-max1",
    "maxx",
    "na",
    "in",
    "-in",
    "x 3f800000",
];

/// A word that is no float.
pub fn no_float(rng: &mut Rng) -> String {
    match rng.below(4) {
        0 => {
            // The digits, or those after the point, are just too many.
            let m = MOST_IN_DECIMAL as usize + rng.pick(&[0, 1, 1000]);
            with_point(&m.to_string(), rng.below(8))
        }
        1 => rng
            .pick(&[
                "0.00000000001",
                "0.00000000000",
                "-0.12345678901",
                "99999999999999999999",
                "4294967296.5",
            ])
            .into(),
        _ => rng.pick(&NO_FLOATS).into(),
    }
}

const NO_NUMBERS: [&str; 17] = [
    "4294967296",
    "4294967295",
    "42949672950",
    "18446744073709551616",
    "-1",
    "-0",
    "+1",
    "1.0",
    "0.5",
    "x1",
    "x00000001",
    "1a",
    "nan",
    "99999999999999999999999999",
    "00000000004294967296",
    "00000000004294967295",
    "0x1",
];

const SPARE: [&str; 11] = [
    "0",
    "1",
    "0.5",
    "nan",
    "vel",
    "#",
    "# spare",
    "\r",
    "\t",
    "-",
    "x00000000",
];

/// A command, or a word that might be taken for one.
fn command_word(rng: &mut Rng) -> &'static str {
    const OTHERS: [&str; 9] = [
        "links",
        "New",
        "short-out",
        "shortout",
        "springof",
        "quit",
        "help",
        "ok",
        "tick",
    ];
    let words = [&NAMES[..], &OTHERS].concat();
    rng.pick(&words)
}

/// A line that is spoilt in one place, unless the change doesn't matter.
pub fn spoilt(rng: &mut Rng, line: &str) -> Vec<u8> {
    let mut words: Vec<Vec<u8>> = line
        .split(' ')
        .filter(|word| !word.is_empty())
        .map(|word| word.as_bytes().into())
        .collect();
    let at = rng.below(words.len());
    match rng.below(14) {
        0 | 1 => drop(words.remove(at)),
        2 => words.truncate(at.max(1)),
        3 | 4 => words.push(rng.pick(&SPARE).into()),
        5 => words.insert(at, rng.pick(&SPARE).into()),
        6 => words[at] = no_float(rng).into(),
        7 => words[at] = rng.pick(&NO_NUMBERS).into(),
        8 => words[at] = decimal(rng).into(),
        9 => words[0].make_ascii_uppercase(),
        10 => {
            let byte = rng.pick(&[b'\t', b'\r', 0, 0xFF, 0x80, 0xA0, 0x0B, b'#', b'_', b'x', b'1']);
            let place = rng.below(words[at].len() + 1);
            words[at].insert(place, byte);
        }
        11 => {
            let place = rng.below(words[at].len());
            words[at].remove(place);
        }
        12 if words.len() > 1 => {
            let second = words.remove(1);
            let glue: &[u8] = rng.pick(&[b"\t", b",", b""]);
            words[0].extend_from_slice(&[glue, &second].concat());
        }
        _ => words[0] = command_word(rng).into(),
    }
    words.join(&b' ')
}

#[cfg(test)]
mod tests {
    use super::*;

    #[test]
    fn what_is_said_to_be_a_float_is_one_and_else_not() {
        let rng = &mut Rng::new(2, 0);
        for _ in 0..10_000 {
            let (word, other) = (decimal(rng), no_float(rng));
            assert!(script::float(word.as_bytes()).is_some(), "{word}");
            assert!(script::float(other.as_bytes()).is_none(), "{other}");
        }
        for word in NO_FLOATS {
            assert!(script::float(word.as_bytes()).is_none(), "{word}");
        }
    }
}
