//! A number or a float as a word. Each reads back as the same bits.

use crate::rng::Rng;

pub trait Spelling {
    fn number(&mut self, number: u32) -> String;
    fn float(&mut self, x: f32) -> String;
}

/// In the one plain way: digits, and a float's bits.
pub struct Plainly;

impl Spelling for Plainly {
    fn number(&mut self, number: u32) -> String {
        number.to_string()
    }

    fn float(&mut self, x: f32) -> String {
        format!("x{:08x}", x.to_bits())
    }
}

/// In any way that a script has for it.
pub struct Variously<'a>(pub &'a mut Rng);

impl Spelling for Variously<'_> {
    fn number(&mut self, number: u32) -> String {
        if self.0.chance(990) {
            return Plainly.number(number);
        }
        let width = self.0.between(2, 14);
        format!("{number:0width$}")
    }

    fn float(&mut self, x: f32) -> String {
        let rng = &mut *self.0;
        if rng.chance(600) {
            let word = match rng.chance(50) {
                true => format!("{x:.*}", rng.below(11)),
                false => shortest(x),
            };
            if script::float(word.as_bytes()).is_some_and(|read| read.to_bits() == x.to_bits()) {
                return word;
            }
        }
        match rng.chance(900) {
            true => Plainly.float(x),
            false => format!("x{:08X}", x.to_bits()),
        }
    }
}

/// A name, or the fewest decimals.
fn shortest(x: f32) -> String {
    let sign = if x.is_sign_negative() { "-" } else { "" };
    match x.abs() {
        f32::INFINITY => format!("{sign}inf"),
        f32::MAX => format!("{sign}max"),
        _ if x.is_nan() => "nan".into(),
        _ => x.to_string(),
    }
}

#[cfg(test)]
mod tests {
    use super::*;
    use crate::floats;

    #[test]
    fn a_word_reads_back() {
        let rng = &mut Rng::new(1, 0);
        for _ in 0..20_000 {
            let x = match rng.below(2) {
                0 => floats::odd(rng),
                _ => floats::within(rng, 2.0),
            };
            for word in [Plainly.float(x), Variously(rng).float(x)] {
                assert_eq!(
                    script::float(word.as_bytes()).map(f32::to_bits),
                    Some(x.to_bits()),
                    "{word}"
                );
            }
        }
    }
}
