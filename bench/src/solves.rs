//! The solve at six sizes: matrices whose diagonal outweighs the rest, as a mass matrix is, and others, whose rows are exchanged.

use crate::arms::{mass, same};
use crate::table::{Table, Times};
use giellavor::ffi;
use plain::solve::solve;
use std::hint::black_box;

const SIZES: [usize; 6] = [1, 3, 6, 12, 24, 48];

pub fn time(table: &mut Table) {
    table.sizes("solve", "unknowns", SIZES, |n| timed(n, &mass(n)));
    table.sizes("with exchanges", "unknowns", SIZES, |n| timed(n, &exchanged(n)));
}

/// The same rows from the last to the first.
fn exchanged(n: usize) -> Vec<f32> {
    let rows = mass(n);
    rows.chunks(n).rev().flatten().copied().collect()
}

fn timed(n: usize, matrix: &[f32]) -> Times {
    let right: Vec<f32> = (0..n).map(|i| (i as f32 - 0.5) / n as f32).collect();
    let (mut ours, mut rust) = (vec![0.0; n], vec![0.0; n]);
    let times = Times::of(
        &mut || {
            black_box(ffi::solve(
                black_box(n),
                black_box(matrix),
                black_box(&right),
                black_box(&mut ours),
            ));
        },
        &mut || {
            let _ = black_box(solve(
                black_box(n),
                black_box(matrix),
                black_box(&right),
                black_box(&mut rust),
            ));
        },
    );
    assert!(same(&ours, &rust));
    times
}
