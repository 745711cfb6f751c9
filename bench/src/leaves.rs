//! A rotation, a pose product, a split map.

use crate::arms::{FRAME1, FRAME2, plain_pose, same};
use crate::table::{Table, Times};
use crate::times::least;
use giellavor::ffi::{self, timed};
use giellavor::{LINKS, Pose};
use plain::Rotation;
use plain::split::{Split, split_map};
use std::hint::black_box;

/// A small angle, and one near the largest.
const NEAR: f32 = 0.5;
const FAR: f32 = 255.9;
/// Rotations are timed so many in a row: to ask for a single one takes as long as the rotation, and what branches do on fewer a processor learns by heart.
const ANGLES: u32 = 65_536;

pub fn time(table: &mut Table) {
    rotations(table);
    table.line("pose product", product(FRAME1, FRAME2));
    table.line("split map, 16 links", split(1));
}

fn rotations(table: &mut Table) {
    let [near, far, any] = [vec![NEAR; ANGLES as usize], vec![FAR; ANGLES as usize], angles()];
    for &angle in any.iter().chain([&NEAR, &FAR]) {
        let ours = ffi::rotate(angle).rotation;
        assert!(Rotation::at(angle).is_ok_and(|rotation| same(&rotation.floats(), &[ours.re, ours.im])));
    }
    // By turns: a machine's clock may change between two lines.
    let all = least([
        &mut || near.iter().copied().for_each(ours),
        &mut || near.iter().copied().for_each(rust),
        &mut || far.iter().copied().for_each(ours),
        &mut || far.iter().copied().for_each(rust),
        &mut || any.iter().copied().for_each(ours),
        &mut || any.iter().copied().for_each(rust),
    ]);
    let [near, near_rust, far, far_rust, any, any_rust] = all.map(|ns| ns / f64::from(ANGLES));
    table.line(&format!("rotation at {NEAR}"), Times::both(near, near_rust));
    table.line(&format!("rotation at {FAR}"), Times::both(far, far_rust));
    table.line("rotation, angles by chance", Times::both(any, any_rust));
    table.remark(format!(
        "rotation: at {FAR} it takes {:.2} times as long as at {NEAR} (plain Rust: {:.2})",
        far / near,
        far_rust / near_rust
    ));
}

/// From -256 to 256, by chance.
fn angles() -> Vec<f32> {
    let mut state = 1_u32;
    (0..ANGLES)
        .map(|_| {
            state = state.wrapping_mul(1_664_525).wrapping_add(1_013_904_223);
            state as i32 as f32 / (1 << 23) as f32
        })
        .collect()
}

fn ours(angle: f32) {
    black_box(ffi::rotate(black_box(angle)));
}

fn rust(angle: f32) {
    let _ = black_box(Rotation::at(black_box(angle)));
}

fn product(a: Pose, b: Pose) -> Times {
    let (p, q) = (plain_pose(a), plain_pose(b));
    let ours = plain_pose(timed::timed_product(a, b));
    assert!(same(&ours.floats(), &plain_product(p, q).floats()));
    Times::of(
        &mut || {
            black_box(timed::timed_product(black_box(a), black_box(b)));
        },
        &mut || {
            black_box(plain_product(black_box(p), black_box(q)));
        },
    )
}

/// A call, as ours is one.
#[inline(never)]
fn plain_product(a: plain::Pose, b: plain::Pose) -> plain::Pose {
    a.times(b)
}

fn split(link: u32) -> Times {
    let parents: [u8; LINKS] = std::array::from_fn(|j| (j / 2) as u8);
    let mut maps = [[0; 2 * LINKS]; 2];
    let [ours, rust] = &mut maps;
    let times = Times::of(
        &mut || {
            black_box(ffi::split_delete(black_box(&parents), black_box(link), black_box(ours)));
        },
        &mut || {
            let _ = black_box(split_map(
                black_box(&parents),
                Split::Delete,
                black_box(link),
                black_box(rust),
            ));
        },
    );
    assert_eq!(maps[0], maps[1]);
    times
}
