//! The words of a line: numbers, floats and poses.

use crate::terms::Pose;

/// Bytes of the longest line, its newline apart.
pub const MOST_LINE: usize = 1_048_576;
/// The digits of a decimal, read as one whole number, stay below this, and so are an f32.
pub const MOST_IN_DECIMAL: u32 = 1 << 24;
/// As many powers of ten are an f32.
pub const MOST_DIGITS_AFTER_POINT: usize = 10;

/// The words of a line that are still to be read. Every reading is `None` if the line has no such word next.
pub struct Words<'a> {
    line: &'a [u8],
}

impl<'a> Words<'a> {
    pub fn of(line: &'a [u8]) -> Words<'a> {
        Words { line }
    }

    pub fn word(&mut self) -> Option<&'a [u8]> {
        let begin = self.line.iter().position(|&b| b != b' ')?;
        let rest = &self.line[begin..];
        let (word, rest) = rest.split_at(rest.iter().position(|&b| b == b' ').unwrap_or(rest.len()));
        self.line = rest;
        Some(word)
    }

    /// No word is left.
    pub fn end(&mut self) -> Option<()> {
        match self.word() {
            None => Some(()),
            Some(_) => None,
        }
    }

    pub fn number(&mut self) -> Option<u32> {
        number(self.word()?)
    }

    /// A number at most `most`.
    pub fn up_to(&mut self, most: u32) -> Option<u32> {
        self.number().filter(|&n| n <= most)
    }

    pub fn byte(&mut self) -> Option<u8> {
        self.up_to(255).map(|n| n as u8)
    }

    pub fn float(&mut self) -> Option<f32> {
        float(self.word()?)
    }

    pub fn floats<const N: usize>(&mut self) -> Option<[f32; N]> {
        let mut floats = [0.0; N];
        for x in &mut floats {
            *x = self.float()?;
        }
        Some(floats)
    }

    pub fn pose(&mut self) -> Option<Pose> {
        self.floats()
    }

    /// All words that are left, each read by `read`.
    pub fn rest<T>(&mut self, read: impl Fn(&[u8]) -> Option<T>) -> Option<Vec<T>> {
        std::iter::from_fn(|| self.word()).map(read).collect()
    }

    /// One of these words, by its place.
    pub fn one_of<T: Copy>(&mut self, choices: &[(&str, T)]) -> Option<T> {
        let word = self.word()?;
        choices
            .iter()
            .find(|(name, _)| name.as_bytes() == word)
            .map(|&(_, choice)| choice)
    }
}

/// Digits as a whole number up to `most`.
fn digits(word: &[u8], most: u32) -> Option<u32> {
    if word.is_empty() {
        return None;
    }
    word.iter().try_fold(0u32, |n, b| {
        let digit = b.is_ascii_digit().then(|| u32::from(b - b'0'))?;
        n.checked_mul(10)?.checked_add(digit).filter(|&n| n <= most)
    })
}

pub fn number(word: &[u8]) -> Option<u32> {
    digits(word, u32::MAX)
}

pub fn float(word: &[u8]) -> Option<f32> {
    match word {
        b"nan" => Some(f32::NAN),
        b"inf" => Some(f32::INFINITY),
        b"-inf" => Some(f32::NEG_INFINITY),
        b"max" => Some(f32::MAX),
        b"-max" => Some(-f32::MAX),
        [b'x', hex @ ..] => bits(hex),
        [b'-', unsigned @ ..] => decimal(unsigned).map(|x| -x),
        unsigned => decimal(unsigned),
    }
}

fn bits(hex: &[u8]) -> Option<f32> {
    if hex.len() != 8 {
        return None;
    }
    let nibble = |bits: u32, b: &u8| Some(bits << 4 | (*b as char).to_digit(16)?);
    hex.iter().try_fold(0, nibble).map(f32::from_bits)
}

/// Both the digits and the power of ten are exact, so the quotient is rounded once.
fn decimal(word: &[u8]) -> Option<f32> {
    let (whole, after) = match word.iter().position(|&b| b == b'.') {
        Some(point) => (&word[..point], &word[point + 1..]),
        None => (word, &b"0"[..0]),
    };
    let has_point = whole.len() < word.len();
    if whole.is_empty() || has_point && after.is_empty() || after.len() > MOST_DIGITS_AFTER_POINT {
        return None;
    }
    let m = digits(&[whole, after].concat(), MOST_IN_DECIMAL - 1)?;
    let power: f32 = [10.0; MOST_DIGITS_AFTER_POINT][..after.len()].iter().product();
    Some(m as f32 / power)
}

#[cfg(test)]
mod tests {
    use super::*;

    #[test]
    fn decimals_are_rounded_once() {
        for (word, x) in [
            ("0.1", 0.1f32),
            ("-0.1", -0.1),
            ("16777215", 16_777_215.0),
            ("1677721.5", 1_677_721.5),
            ("0.0016777215", 0.001_677_721_5),
            ("0.0000000001", 1e-10),
            ("000000000000000000000000.5", 0.5),
            ("00000000000000000000000016777215", 16_777_215.0),
            ("3.000000", 3.0),
            ("0", 0.0),
        ] {
            assert_eq!(float(word.as_bytes()).map(f32::to_bits), Some(x.to_bits()), "{word}");
        }
        for m in (0..MOST_IN_DECIMAL).step_by(7919) {
            for after in 0..=MOST_DIGITS_AFTER_POINT {
                let text = format!("{m:011}");
                let (whole, fraction) = text.split_at(text.len() - after);
                let word = if after == 0 {
                    text.clone()
                } else {
                    format!("{whole}.{fraction}")
                };
                let expected: f32 = word.parse().unwrap();
                assert_eq!(
                    float(word.as_bytes()).map(f32::to_bits),
                    Some(expected.to_bits()),
                    "{word}"
                );
            }
        }
    }

    #[test]
    fn minus_zero() {
        assert_eq!(float(b"-0").map(f32::to_bits), Some(0x8000_0000));
        assert_eq!(float(b"-0.00").map(f32::to_bits), Some(0x8000_0000));
    }

    #[test]
    fn bits_and_names() {
        assert_eq!(float(b"x3F800000"), Some(1.0));
        assert_eq!(float(b"x3f800000"), Some(1.0));
        assert_eq!(float(b"xaBcDeF01").map(f32::to_bits), Some(0xABCD_EF01));
        assert_eq!(float(b"max"), Some(f32::MAX));
        assert_eq!(float(b"-max"), Some(-f32::MAX));
        assert_eq!(float(b"inf"), Some(f32::INFINITY));
        assert_eq!(float(b"-inf"), Some(-f32::INFINITY));
        assert!(float(b"nan").unwrap().is_nan());
        assert!(float(b"xffc00001").unwrap().is_nan());
    }

    #[test]
    fn no_floats() {
        const NO_FLOATS: [&str; 12] = [
            "",
            "-",
            ".5",
            "5.",
            "x3f80000",
            "-nan",
            "16777216",
            "3.0000000",
            "1677721.6",
            "0.00000000001",
            "99999999999999999999",
            "٣",
        ];
        for word in NO_FLOATS {
            assert_eq!(float(word.as_bytes()), None, "{word}");
        }
    }

    #[test]
    fn numbers() {
        assert_eq!(number(b"4294967295"), Some(u32::MAX));
        assert_eq!(number(b"00000000000000000000000004294967295"), Some(u32::MAX));
        assert_eq!(number(b"0"), Some(0));
        for word in [
            "",
            "4294967296",
            "99999999999999999999999",
            "-1",
            "-0",
            "+1",
            "1.0",
            "x1",
            "1a",
            "1\r",
        ] {
            assert_eq!(number(word.as_bytes()), None, "{word}");
        }
    }

    #[test]
    fn words_are_parted_by_spaces_alone() {
        let mut words = Words::of(b"  a  b\tc \r ");
        assert_eq!(words.word(), Some(&b"a"[..]));
        assert_eq!(words.word(), Some(&b"b\tc"[..]));
        assert_eq!(words.word(), Some(&b"\r"[..]));
        assert_eq!(words.end(), Some(()));
    }
}
