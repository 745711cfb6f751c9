//! The rotation against the plain reading, bit for bit, and against the true cosine and sine: over a million angles from -256 to 256, the ends, both
//! zeros, denormals and every threshold of a quarter turn among them.

use crate::size::{CALLS, calls};
use giellavor::Refusal;
use giellavor::rotation::rotate;

const TOLERANCE: f64 = 0.000001;

fn check(angle: f32) {
    let answer = rotate(angle).unwrap_or_else(|why| panic!("{angle:e}: {why}"));
    let (sine, cosine) = f64::from(angle).sin_cos();
    let plain = plain::Rotation::at(angle).unwrap();
    assert_eq!(
        [answer.re, answer.im].map(f32::to_bits),
        plain.floats().map(f32::to_bits),
        "{angle:e}"
    );
    let (re, im) = (f64::from(answer.re), f64::from(answer.im));
    assert!(
        (re - cosine).abs() <= TOLERANCE && (im - sine).abs() <= TOLERANCE,
        "{angle:e}: {re} {im}"
    );
}

/// All of them where a million calls are asked for.
fn stride() -> usize {
    (CALLS / calls().max(1)).max(1)
}

#[test]
fn a_million_angles_spread_evenly() {
    for step in (0..=1_048_576).step_by(stride()) {
        check(-256.0 + step as f32 / 2048.0);
    }
}

/// Every 1,021st float from +0 to 256, and its negative: small angles and denormals as well as large ones.
#[test]
fn angles_of_every_size() {
    for bits in (0..=256f32.to_bits()).step_by(1021 * stride()) {
        check(f32::from_bits(bits));
        check(-f32::from_bits(bits));
    }
}

#[test]
fn ends_zeros_and_denormals() {
    for bits in [0, 1, 2, 0x007F_FFFF, 0x0080_0000, 0x4380_0000] {
        check(f32::from_bits(bits));
        check(-f32::from_bits(bits));
    }
    let zero = rotate(-0.0).unwrap();
    assert_eq!((zero.re.to_bits(), zero.im.to_bits()), (1f32.to_bits(), 0));
}

/// Where the count of quarter turns comes to each number there is, and the two floats before and after it.
#[test]
fn each_threshold_and_its_neighbours() {
    const EIGHTH: f32 = f32::from_bits(0x3F49_0FDB);
    for eighths in (1_u16..=325).step_by(2) {
        let bits = (f32::from(eighths) * EIGHTH).to_bits();
        for near in bits - 2..=bits + 2 {
            check(f32::from_bits(near));
            check(-f32::from_bits(near));
        }
    }
}

#[test]
fn what_lies_beyond_is_refused() {
    let next = f32::from_bits(256f32.to_bits() + 1);
    for angle in [next, -next, 1000.0, f32::MAX, f32::MIN] {
        assert_eq!(rotate(angle), Err(Refusal::AngleTooFar));
    }
    for angle in [f32::NAN, f32::INFINITY, f32::NEG_INFINITY] {
        assert_eq!(rotate(angle), Err(Refusal::NotFinite));
    }
}
