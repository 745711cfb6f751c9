//! Rotations: the cosine and the sine of an angle, from our own f32 operations.

use crate::limits::MOST_ANGLE;
use crate::point::Point;
use crate::refusal::{Answer, Refusal::*};

#[derive(Clone, Copy, Debug, PartialEq)]
#[repr(C)]
pub struct Rotation {
    pub re: f32,
    pub im: f32,
}

/// An eighth of a turn, the half of a quarter: where the nearest quarter turn changes.
const EIGHTH: f32 = f32::from_bits(0x3F49_0FDB);
/// Quarter turns up to the largest angle.
const MOST_QUARTERS: u32 = 163;
/// A quarter turn in three pieces. Products of the first with a count are exact.
const QUARTER: [f32; 3] = [1.5703125, 0.000_483_751_3, 7.549_79e-8];

/// Where the count of quarter turns comes to `j`.
fn threshold(j: u32) -> f32 {
    (2 * j - 1) as f32 * EIGHTH
}

/// How many thresholds are at or below `a`: guessed by a product, then settled by the thresholds beside the guess.
fn quarter_turns(a: f32) -> u32 {
    let mut k = ((a * std::f32::consts::FRAC_2_PI + 0.5) as u32).min(MOST_QUARTERS);
    while k < MOST_QUARTERS && threshold(k + 1) <= a {
        k += 1;
    }
    while k > 0 && threshold(k) > a {
        k -= 1;
    }
    k
}

/// Sine and cosine within an eighth of a turn, by their series.
fn sine_cosine(r: f32) -> (f32, f32) {
    const S: [f32; 4] = [-1.0 / 6.0, 1.0 / 120.0, -1.0 / 5040.0, 1.0 / 362_880.0];
    const C: [f32; 3] = [1.0 / 24.0, -1.0 / 720.0, 1.0 / 40_320.0];
    let z = r * r;
    let s = r + r * (z * (S[0] + z * (S[1] + z * (S[2] + z * S[3]))));
    let c = 1.0 + z * (-0.5 + z * (C[0] + z * (C[1] + z * C[2])));
    (s, c)
}

impl Rotation {
    pub const IDENTITY: Rotation = Rotation { re: 1.0, im: 0.0 };

    /// The rotation by an angle.
    pub fn by(angle: f32) -> Rotation {
        let a = if angle < 0.0 { -angle } else { angle };
        let k = quarter_turns(a);
        let kf = k as f32;
        let (s, c) = sine_cosine(((a - kf * QUARTER[0]) - kf * QUARTER[1]) - kf * QUARTER[2]);
        let (re, im) = match k % 4 {
            0 => (c, s),
            1 => (-s, c),
            2 => (-c, -s),
            _ => (s, -c),
        };
        Rotation {
            re,
            im: if angle < 0.0 { -im } else { im },
        }
    }

    /// The rotation by an angle that a caller gives.
    pub fn at(angle: f32) -> Answer<Rotation> {
        NotFinite.when(!angle.is_finite())?;
        Wound.when(is_wound(angle))?;
        Ok(Rotation::by(angle))
    }

    pub fn times(self, b: Rotation) -> Rotation {
        let a = self;
        Rotation {
            re: a.re * b.re - a.im * b.im,
            im: a.re * b.im + a.im * b.re,
        }
    }

    pub fn turn(self, p: Point) -> Point {
        Point {
            x: self.re * p.x - self.im * p.y,
            y: self.im * p.x + self.re * p.y,
        }
    }

    pub fn inverse(self) -> Rotation {
        Rotation {
            re: self.re,
            im: -self.im,
        }
    }

    pub fn floats(self) -> [f32; 2] {
        [self.re, self.im]
    }

    /// Whether its length is near enough to one.
    pub fn is_unit(self) -> bool {
        ((self.re * self.re + self.im * self.im) - 1.0).abs() <= 0.001
    }
}

/// Whether an angle is too large, either way.
pub fn is_wound(angle: f32) -> bool {
    angle.abs() > MOST_ANGLE
}

#[cfg(test)]
mod tests {
    use super::*;

    fn counted(a: f32) -> u32 {
        (1..=MOST_QUARTERS).filter(|&j| threshold(j) <= a).count() as u32
    }

    #[test]
    fn quarter_turns_are_the_thresholds_counted() {
        for j in 1..=MOST_QUARTERS {
            let bits = threshold(j).to_bits();
            for near in bits - 100..=bits + 100 {
                let a = f32::from_bits(near);
                assert_eq!(quarter_turns(a), counted(a), "{a}");
            }
        }
        for a in [0.0, -0.0, f32::from_bits(1), 256.0, 1e30, f32::INFINITY, f32::NAN] {
            assert_eq!(quarter_turns(a), counted(a), "{a}");
        }
        for i in 0..100_000 {
            let a = i as f32 * 0.00256;
            assert_eq!(quarter_turns(a), counted(a), "{a}");
        }
    }

    #[test]
    fn constants_are_the_nearest_floats() {
        assert_eq!(QUARTER[1] as f64, "0.0004837512969970703125".parse::<f64>().unwrap());
        assert_eq!(QUARTER[2], "7.54978995489188e-8".parse::<f32>().unwrap());
        for (x, d) in [
            (1.0f32 / 24.0, 24.0f64),
            (1.0 / 120.0, 120.0),
            (1.0 / 40_320.0, 40_320.0),
        ] {
            assert_eq!(x, (1.0 / d) as f32);
        }
        assert_eq!(-1.0f32 / 6.0, (-1.0f64 / 6.0) as f32);
        assert_eq!(-1.0f32 / 5040.0, (-1.0f64 / 5040.0) as f32);
        assert_eq!(1.0f32 / 362_880.0, (1.0f64 / 362_880.0) as f32);
        assert_eq!(-1.0f32 / 720.0, (-1.0f64 / 720.0) as f32);
    }

    #[test]
    fn near_to_the_sine_and_cosine_of_double_precision() {
        for i in -1_000_000..=1_000_000 {
            let angle = i as f32 * 0.000_256;
            let r = Rotation::by(angle);
            let exact = (angle as f64).sin_cos();
            assert!(
                (r.re as f64 - exact.1).abs() < 0.000_001 && (r.im as f64 - exact.0).abs() < 0.000_001,
                "{angle}"
            );
        }
    }

    #[test]
    fn minus_zero_turns_by_plus_zero() {
        assert_eq!(Rotation::by(-0.0).im.to_bits(), 0);
        assert_eq!(Rotation::by(-0.0).re, 1.0);
    }

    #[test]
    fn the_largest_angle_and_the_next() {
        assert!(Rotation::at(256.0).is_ok() && Rotation::at(-256.0).is_ok());
        let next = f32::from_bits(256.0f32.to_bits() + 1);
        assert_eq!(Rotation::at(next), Err(Wound));
        assert_eq!(Rotation::at(-next), Err(Wound));
        assert_eq!(Rotation::at(f32::INFINITY), Err(NotFinite));
        assert_eq!(Rotation::at(f32::NAN), Err(NotFinite));
    }
}
