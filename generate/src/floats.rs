//! Floats by chance, as values.

use crate::rng::Rng;
use plain::Rotation;
use plain::limits::MOST_ANGLE;
use std::f32::consts::{FRAC_PI_2, FRAC_PI_4, PI};

/// A float some steps up or down the f32.
pub fn beside(x: f32, steps: i32) -> f32 {
    f32::from_bits(x.to_bits().wrapping_add_signed(steps))
}

/// At most `most` either way: now and then a zero of either sign, an end, or few decimals.
pub fn within(rng: &mut Rng, most: f32) -> f32 {
    match rng.below(16) {
        0 => 0.0,
        1 => -0.0,
        2 => most,
        3 => -most,
        4..=8 => {
            let ten = 10usize.pow(rng.between(1, 4) as u32);
            rng.below(ten + 1) as f32 / ten as f32 * most * rng.sign()
        }
        _ => rng.signed() * most,
    }
}

/// From zero to `most`.
pub fn up_to(rng: &mut Rng, most: f32) -> f32 {
    within(rng, most).abs()
}

/// A time, a stiffness or the like: not below zero.
pub fn positive(rng: &mut Rng) -> f32 {
    match rng.below(4) {
        0 => rng.pick(&[0.0, 1.0, 0.1, 0.016, 10.0, 60.0]),
        _ => up_to(rng, 1.0),
    }
}

/// So large that a few operations overflow, but finite.
pub fn huge(rng: &mut Rng) -> f32 {
    let x = match rng.below(4) {
        0 => rng.pick(&[f32::MAX, beside(f32::MAX, -1), 1.7014117e38, 1.7014118e38]),
        // Near the square root of the largest float.
        1 => f32::from_bits(0x5F00_0000 + (rng.bits() & 0x00FF_FFFF)),
        _ => f32::from_bits(0x6000_0000 + rng.bits() % 0x1F80_0000),
    };
    x * rng.sign()
}

/// So small that products vanish or quotients overflow.
pub fn tiny(rng: &mut Rng) -> f32 {
    let bits = match rng.below(3) {
        0 => rng.pick(&[1, 2, 0x007F_FFFF, 0x0080_0000, 0x0080_0001]),
        1 => rng.bits() & 0x007F_FFFF,
        _ => rng.bits() % 0x1000_0000,
    };
    f32::from_bits(bits) * rng.sign()
}

/// Not finite.
pub fn not_finite(rng: &mut Rng) -> f32 {
    f32::from_bits(rng.pick(&[
        0x7FC0_0000,
        0x7FC0_0000,
        0xFFC0_0000,
        0x7F80_0001,
        0xFFFF_FFFF,
        0x7F80_0000,
        0x7F80_0000,
        0xFF80_0000,
        0xFF80_0000,
    ]))
}

/// Any bits, and borders.
pub fn odd(rng: &mut Rng) -> f32 {
    match rng.below(8) {
        0..=2 => not_finite(rng),
        3 => rng.pick(&[f32::MAX, f32::MIN, 0.0, -0.0, f32::MIN_POSITIVE]),
        4 => angle_border(rng),
        5 => huge(rng),
        6 => tiny(rng),
        _ => f32::from_bits(rng.bits()),
    }
}

/// Around the largest angle.
pub fn angle_border(rng: &mut Rng) -> f32 {
    let x = match rng.below(4) {
        0 => rng.pick(&[256.0, 255.99, 256.001, 256.1, 300.0]),
        _ => beside(MOST_ANGLE, rng.below(5) as i32 - 2),
    };
    x * rng.sign()
}

/// An angle of at most `most` either way, which is at least 8.
pub fn angle(rng: &mut Rng, most: f32) -> f32 {
    match rng.below(8) {
        0 => rng.signed() * most,
        1 => {
            // Beside a change of the nearest quarter turn.
            let eighths = (most / FRAC_PI_4) as usize;
            let x = (2 * rng.between(1, eighths.div_ceil(2)) - 1) as f32 * FRAC_PI_4;
            beside(x, rng.below(7) as i32 - 3).min(most) * rng.sign()
        }
        2 => rng.pick(&[most, -most, 0.0, -0.0, FRAC_PI_2, PI, -PI]),
        3 => rng.signed() * 8.0,
        _ => within(rng, 2.0),
    }
}

fn turn(rng: &mut Rng, length: f32) -> [f32; 2] {
    let turn = Rotation::by(rng.signed() * 4.0);
    [turn.re * length, turn.im * length]
}

/// A rotation of unit length, or near enough.
pub fn unit_rotation(rng: &mut Rng) -> [f32; 2] {
    match rng.below(6) {
        0 => rng.pick(&[
            [1.0, 0.0],
            [0.0, 1.0],
            [-1.0, 0.0],
            [0.0, -1.0],
            [1.0, -0.0],
            [-1.0, -0.0],
            [-0.0, 1.0],
            [0.6, 0.8],
            [-0.8, 0.6],
            [0.28, -0.96],
        ]),
        1 => [1.0, 0.0],
        2 => {
            let length = 1.0 + rng.signed() * 0.000_45;
            turn(rng, length)
        }
        _ => turn(rng, 1.0),
    }
}

/// A rotation around the border of what is near enough, or far off.
pub fn odd_rotation(rng: &mut Rng) -> [f32; 2] {
    match rng.below(4) {
        0 => rng.pick(&[
            [0.0, 0.0],
            [1.0, 1.0],
            [2.0, 0.0],
            [0.5, 0.5],
            [f32::MAX, f32::MAX],
            [f32::MAX, 0.0],
            [0.0, -f32::MAX],
            [1.8446744e19, 0.0],
            [1.001, 0.0],
        ]),
        1 => {
            let length = 1.0 + rng.pick(&[-0.0005, 0.0005]) + rng.signed() * 0.000_003;
            turn(rng, length)
        }
        2 => {
            let x = beside(rng.pick(&[1.001f32, 0.999]).sqrt(), rng.below(9) as i32 - 4) * rng.sign();
            let y = rng.pick(&[0.0, -0.0, f32::from_bits(1)]);
            rng.pick(&[[x, y], [y, x]])
        }
        _ => [odd(rng), odd(rng)],
    }
}
