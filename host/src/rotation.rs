//! The rotation of an angle.

use crate::Refusal;
use crate::abi::Rotation;
use crate::ffi;
use crate::refusal::refused;

/// The rotation of an angle: within 0.000001 of its cosine and sine. Beyond 256 either way it is refused.
///
/// # Errors
///
/// [`Refusal::NotFinite`] and [`Refusal::AngleTooFar`].
pub fn rotate(angle: f32) -> Result<Rotation, Refusal> {
    let answer = ffi::rotate(angle);
    refused(answer.refusal)?;
    Ok(answer.rotation)
}
