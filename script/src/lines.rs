//! Answers as lines of text.

use std::io::Write;

/// The eight digits of a number, all worked out at once: each has a byte of its own.
fn hexadecimal(bits: u32) -> [u8; 8] {
    const ONES: u64 = 0x0101_0101_0101_0101;
    let mut spread = u64::from(bits);
    spread = (spread | spread << 16) & 0x0000_FFFF_0000_FFFF;
    spread = (spread | spread << 8) & 0x00FF_00FF_00FF_00FF;
    spread = (spread | spread << 4) & 0x0F0F_0F0F_0F0F_0F0F;
    // Ten and more reach the fifth bit with six more.
    let letters = (spread + 6 * ONES) >> 4 & ONES;
    (spread + u64::from(b'0') * ONES + letters * u64::from(b'a' - b'0' - 10)).to_be_bytes()
}

/// Lines written one word after another.
pub struct Lines<'a> {
    text: &'a mut Vec<u8>,
    begun: bool,
}

impl<'a> Lines<'a> {
    pub fn onto(text: &'a mut Vec<u8>) -> Lines<'a> {
        Lines { text, begun: false }
    }

    fn space(&mut self) {
        if self.begun {
            self.text.push(b' ');
        }
        self.begun = true;
    }

    pub fn word(&mut self, word: &str) -> &mut Self {
        self.space();
        self.text.extend_from_slice(word.as_bytes());
        self
    }

    pub fn number(&mut self, number: impl TryInto<u64>) -> &mut Self {
        self.space();
        let number: u64 = number.try_into().ok().expect("a count");
        write!(self.text, "{number}").expect("memory can be written");
        self
    }

    /// Two numbers as one word.
    pub fn pair(&mut self, a: u8, b: u8) -> &mut Self {
        self.space();
        write!(self.text, "{a}/{b}").expect("memory can be written");
        self
    }

    pub fn numbers<T: Copy + TryInto<u64>>(&mut self, numbers: &[T]) -> &mut Self {
        for &number in numbers {
            self.number(number);
        }
        self
    }

    /// Every NaN is written alike.
    pub fn float(&mut self, x: f32) -> &mut Self {
        self.space();
        let bits = if x.is_nan() { 0x7FC0_0000 } else { x.to_bits() };
        self.text.extend_from_slice(&hexadecimal(bits));
        self
    }

    pub fn floats(&mut self, floats: &[f32]) -> &mut Self {
        for &x in floats {
            self.float(x);
        }
        self
    }

    pub fn end(&mut self) {
        self.text.push(b'\n');
        self.begun = false;
    }
}

#[cfg(test)]
mod tests {
    use super::*;

    #[test]
    fn eight_digits_are_those_of_the_number() {
        for bits in (0..=u32::MAX)
            .step_by(65_521)
            .chain([0x0123_4567, 0x89AB_CDEF, u32::MAX])
        {
            assert_eq!(hexadecimal(bits), format!("{bits:08x}").as_bytes());
        }
    }
}
