//! Every f32 there is as an angle: ours and plain Rust's answer, bit for bit.

use giellavor::ffi;
use plain::Rotation;

pub fn compare() {
    let mut answered = 0_u64;
    for bits in 0..=u32::MAX {
        let angle = f32::from_bits(bits);
        let ours = ffi::rotate(angle);
        match Rotation::at(angle) {
            Ok(rust) => {
                assert_eq!(ours.refusal, 0, "{bits:08x}");
                assert_eq!(
                    [ours.rotation.re, ours.rotation.im].map(f32::to_bits),
                    rust.floats().map(f32::to_bits),
                    "{bits:08x}"
                );
                answered += 1;
            }
            Err(refusal) => assert_eq!(ours.refusal, refusal.number(), "{bits:08x}"),
        }
    }
    println!("every f32: {answered} answered and the others refused, as plain Rust does");
}
