//! The answer to a command, as the script has it.

use giellavor::Refusal;

/// An answer: what its first line says, and the lines after it, in words.
pub struct Answer {
    pub verdict: Verdict,
    pub lines: Vec<Vec<String>>,
}

pub enum Verdict {
    Ok,
    Refused(Refusal),
    Unreadable,
    /// What the library did though it may not, in words.
    Wrong(String),
}

impl Verdict {
    fn of(line: &str) -> Verdict {
        let number = line.strip_prefix("refused ").and_then(|number| number.parse().ok());
        match number.and_then(Refusal::from_number) {
            Some(refusal) => Verdict::Refused(refusal),
            None if line == "ok" => Verdict::Ok,
            None if line == "unreadable" => Verdict::Unreadable,
            None => Verdict::Wrong(String::from(line)),
        }
    }
}

impl Answer {
    pub fn of(text: &str) -> Answer {
        let mut lines = text.lines();
        let verdict = Verdict::of(lines.next().unwrap_or_default());
        let words = |line: &str| line.split(' ').map(String::from).collect();
        Answer {
            verdict,
            lines: lines.map(words).collect(),
        }
    }
}

/// A float out of the eight digits of its bits.
pub fn float(word: &str) -> f32 {
    u32::from_str_radix(word, 16).map_or(f32::NAN, f32::from_bits)
}

/// A float for a reader: at most four places, and no minus before a zero.
pub fn decimal(word: &str) -> String {
    let x = float(word);
    if x.abs() >= 1e9 {
        return format!("{x:e}");
    }
    let text = format!("{x:.4}");
    let text = text.trim_end_matches('0').trim_end_matches('.');
    match text {
        "-0" | "" => String::from("0"),
        _ => String::from(text),
    }
}

pub fn decimals(words: &[String]) -> String {
    let words: Vec<String> = words.iter().map(|word| decimal(word)).collect();
    match words.is_empty() {
        true => String::from("none"),
        false => words.join(", "),
    }
}
