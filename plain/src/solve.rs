//! The solve: elimination with row exchanges, then substitution.

use crate::floats::finite;
use crate::limits::DOFS;
use crate::refusal::{Answer, Refusal::*};

/// Up to here a solve takes a small buffer: clearing a large one would cost more than the solve.
const SMALL: usize = 12;

/// Solve the `n` by `n` matrix against the right sides, into `result`.
pub fn solve(n: usize, matrix: &[f32], right: &[f32], result: &mut [f32]) -> Answer {
    Short.when(matrix.len() < n.saturating_mul(n) || right.len() < n || result.len() < n)?;
    Full.when(n > DOFS)?;
    NotFinite.when(!finite(&matrix[..n * n]) || !finite(&right[..n]))?;
    let mut x = [0.0; DOFS];
    let x = &mut x[..n];
    x.copy_from_slice(&right[..n]);
    solve_in_place(matrix, x)?;
    result[..n].copy_from_slice(x);
    Ok(())
}

/// Solve against right sides `x`, at most 48, that become the result; on a refusal they are spoilt.
pub(crate) fn solve_in_place(matrix: &[f32], x: &mut [f32]) -> Answer {
    if x.len() <= SMALL {
        eliminate(matrix, x, &mut [0.0; SMALL * SMALL])
    } else {
        eliminate(matrix, x, &mut [0.0; DOFS * DOFS])
    }
}

/// An entry that overflows stays so until its row becomes the pivot row, or until no row can: it is looked for there.
fn eliminate(matrix: &[f32], x: &mut [f32], buffer: &mut [f32]) -> Answer {
    let n = x.len();
    let rows = &mut buffer[..n * n];
    rows.copy_from_slice(&matrix[..n * n]);
    for column in 0..n {
        let Some(pivot) = pivot_row(rows, n, column) else {
            Overflow.when(!finite(&rows[column * n..]))?;
            return Err(Singular);
        };
        if pivot != column {
            let (upper, lower) = rows.split_at_mut(pivot * n);
            upper[column * n..][..n].swap_with_slice(&mut lower[..n]);
            x.swap(pivot, column);
        }
        Overflow.when(!finite(&rows[column * n..][column..n]))?;
        clear_below(rows, x, column);
    }
    substitute_back(rows, x);
    Overflow.when(!finite(x))
}

/// The first row of the largest entry in a column, from the diagonal down.
fn pivot_row(rows: &[f32], n: usize, column: usize) -> Option<usize> {
    let (mut best, mut largest) = (None, 0.0);
    for row in column..n {
        let size = rows[row * n + column].abs();
        if size > largest {
            (best, largest) = (Some(row), size);
        }
    }
    best
}

/// Take multiples of the pivot row away from the rows below it.
///
/// The right sides go along: each loses its products in the order of the columns, as in a forward substitution
/// afterwards. Whether they are finite is seen at the end, for a right side that isn't leaves a result that isn't.
fn clear_below(rows: &mut [f32], x: &mut [f32], column: usize) {
    let n = x.len();
    let (upper, lower) = rows.split_at_mut((column + 1) * n);
    let pivots = &upper[column * n + column..];
    let (x_upper, x_lower) = x.split_at_mut(column + 1);
    for (row, x) in lower.chunks_exact_mut(n).zip(x_lower) {
        let factor = row[column] / pivots[0];
        for (entry, pivot) in row[column + 1..].iter_mut().zip(&pivots[1..]) {
            *entry -= factor * pivot;
        }
        *x -= factor * x_upper[column];
    }
}

fn substitute_back(rows: &[f32], x: &mut [f32]) {
    let n = x.len();
    for i in (0..n).rev() {
        let row = &rows[i * n..][..n];
        let (x_upper, x_lower) = x.split_at_mut(i + 1);
        let mut left = x_upper[i];
        for (entry, solved) in row[i + 1..].iter().zip(x_lower) {
            left -= entry * *solved;
        }
        x_upper[i] = left / row[i];
    }
}
