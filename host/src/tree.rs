//! A tree of links by its parents, one byte a link.

use crate::Refusal;
use crate::ffi;
use crate::refusal::counted;

/// Writes the links from the root to a link, a byte each; returned is their count.
///
/// # Errors
///
/// [`Refusal::ShortMemory`], [`Refusal::TooMany`] for more parents than an arm has links, and [`Refusal::NoSuchLink`], for a parent that does not come
/// before its link too.
pub fn kinematic_branch(parents: &[u8], link: u32, branch: &mut [u8]) -> Result<usize, Refusal> {
    counted(ffi::branch(parents, link, branch))
}
