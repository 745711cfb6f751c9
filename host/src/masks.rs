//! What masks tell: bit 0 is X, bit 1 is Y, bit 2 the angle.

use crate::Refusal;
use crate::ffi;
use crate::refusal::counted;

/// The DoF count of a locked mask.
///
/// # Errors
///
/// [`Refusal::BadMask`].
pub fn dof_count(mask: u32) -> Result<usize, Refusal> {
    counted(ffi::dof_count(mask))
}

/// The DoF count of a locked mask below an axis: where among the joint's own DoFs the axis' stands.
///
/// # Errors
///
/// [`Refusal::BadMask`] for the mask or the axis.
pub fn dof_count_below(mask: u32, axis: u32) -> Result<usize, Refusal> {
    counted(ffi::dof_count_below(mask, axis))
}

/// Is an axis of a locked mask free?
///
/// # Errors
///
/// [`Refusal::BadMask`] for the mask or the axis.
pub fn is_free(mask: u32, axis: u32) -> Result<bool, Refusal> {
    Ok(counted(ffi::free_axis(mask, axis))? == 1)
}

/// Writes the start of each mask of a list, a byte a mask; returned is the total of DoFs.
///
/// # Errors
///
/// [`Refusal::ShortMemory`], [`Refusal::TooMany`] for more masks than an arm has links, and [`Refusal::BadMask`].
pub fn starts(masks: &[u8], starts: &mut [u8]) -> Result<usize, Refusal> {
    counted(ffi::starts(masks, starts))
}

/// How many velocity constraints a joint's limits and motors make.
///
/// # Errors
///
/// [`Refusal::BadMask`] for any of the three.
pub fn num_velocity_constraints(locked: u32, limit: u32, motor: u32) -> Result<usize, Refusal> {
    counted(ffi::num_velocity_constraints(locked, limit, motor))
}

/// Writes the default damping of a locked mask, four bytes a DoF; returned is the DoF count. [`floats`] reads them.
///
/// # Errors
///
/// [`Refusal::ShortMemory`] and [`Refusal::BadMask`].
pub fn default_damping(mask: u32, damping: &mut [u8]) -> Result<usize, Refusal> {
    counted(ffi::default_damping(mask, damping))
}

/// The floats of a row of bytes, as [`default_damping`] writes them.
pub fn floats(bytes: &[u8]) -> impl Iterator<Item = f32> {
    bytes.as_chunks().0.iter().map(|&bytes| f32::from_le_bytes(bytes))
}
