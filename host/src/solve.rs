//! Systems of linear equations.

use crate::Refusal;
use crate::ffi;
use crate::refusal::refused;

/// Solves the n by n matrix, row after row, against a right side; the solution goes into the first n places of `result`.
/// A refusal leaves `result` as it was.
///
/// # Errors
///
/// [`Refusal::ShortMemory`], [`Refusal::TooMany`] for n above [`DOFS`](crate::DOFS), [`Refusal::NotFinite`], [`Refusal::Singular`] and
/// [`Refusal::ResultNotFinite`].
pub fn solve(n: usize, matrix: &[f32], right: &[f32], result: &mut [f32]) -> Result<(), Refusal> {
    refused(ffi::solve(n, matrix, right, result).refusal)
}
