//! Limit rows, and `fill_jacobians`: of the last link of a chain.

use crate::arms::{Ours, Plain, chain, mass, plain_of, same};
use crate::asked::{Asked, FORCE, LIMITS};
use crate::calls::SIZES;
use crate::table::{Table, Times};
use crate::text;
use giellavor::{axis, ffi};
use plain::rows::{Limit, Vectors};
use std::hint::black_box;

/// A chain on both sides, its last link and its mass matrix.
struct Given {
    ours: Ours,
    plain: Plain,
    link: u32,
    mass: Vec<f32>,
}

/// What a side answers beside what it writes, over lent J and WJ.
trait Answered<const N: usize>: Fn(&Given, &mut [f32], &mut [f32]) -> [f32; N] {}
impl<const N: usize, F: Fn(&Given, &mut [f32], &mut [f32]) -> [f32; N]> Answered<N> for F {}

/// Both sides over n DoFs.
fn timed<const N: usize>(
    n: usize,
    ours: impl Answered<N>,
    rust: impl Answered<N>,
    asked: fn(u32, &[f32]) -> Asked<'_>,
) -> Times {
    let made = chain(n / 3).expect("a chain");
    let given = Given {
        plain: plain_of(&made),
        ours: made,
        link: n as u32 / 3 - 1,
        mass: mass(n),
    };
    let [mut j, mut wj, mut k, mut wk] = [(); 4].map(|()| vec![0.0; n]);
    let (mut a, mut b) = ([0.0; N], [0.0; N]);
    let times = Times::of(
        &mut || a = black_box(ours(black_box(&given), &mut j, &mut wj)),
        &mut || b = black_box(rust(black_box(&given), &mut k, &mut wk)),
    );
    assert!(same(&a, &b) && same(&j, &k) && same(&wj, &wk));
    Times {
        text: text::time(&given.ours.0, asked(given.link, &given.mass)),
        ..times
    }
}

pub fn time(table: &mut Table) {
    let sizes = SIZES.map(|links| 3 * links);
    table.sizes("limit row", "DoFs", sizes, |n| {
        timed(n, our_limit_row, plain_limit_row, |link, mass| Asked::LimitRow {
            link,
            mass,
        })
    });
    table.sizes("fill_jacobians", "DoFs", sizes, |n| {
        timed(n, our_sums, plain_sums, |link, mass| Asked::FillJacobians {
            link,
            mass,
        })
    });
}

fn our_limit_row(given: &Given, j: &mut [f32], wj: &mut [f32]) -> [f32; 5] {
    let row = ffi::limit_row(&given.ours.0, given.link, axis::ANGLE, LIMITS, &given.mass, j, wj);
    [row.lower, row.upper, row.rhs, row.cfm_gain, row.inv_lhs]
}

fn plain_limit_row(given: &Given, j: &mut [f32], wj: &mut [f32]) -> [f32; 5] {
    let limit = Limit {
        pos: LIMITS.position,
        min: LIMITS.min,
        max: LIMITS.max,
        dt: LIMITS.dt,
        erp_inv_dt: LIMITS.erp_inv_dt,
        cfm_coeff: LIMITS.cfm_coeff,
    };
    let out = &mut Vectors { j, wj };
    let row = given
        .plain
        .0
        .limit_row(&given.mass, given.link, axis::ANGLE, &limit, out);
    row.map_or([f32::NAN; 5], |row| {
        [row.lower, row.upper, row.rhs, row.cfm_gain, row.inv_lhs]
    })
}

fn our_sums(given: &Given, j: &mut [f32], wj: &mut [f32]) -> [f32; 2] {
    let (arm, tables) = &given.ours;
    let sums = ffi::fill_jacobians(arm, given.link, FORCE, tables, &given.mass, j, wj);
    [sums.j_wj, sums.j_velocities]
}

fn plain_sums(given: &Given, j: &mut [f32], wj: &mut [f32]) -> [f32; 2] {
    let (arm, tables) = &given.plain;
    let (force, out) = ([FORCE.x, FORCE.y], &mut Vectors { j, wj });
    let sums = arm.fill_jacobians(tables, &given.mass, given.link, force, FORCE.torque, out);
    sums.map_or([f32::NAN; 2], |(j_wj, j_velocities)| [j_wj, j_velocities])
}
