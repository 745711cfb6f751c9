//! Masks of a joint: bit 0 is X, bit 1 Y, bit 2 the angle. A set bit of the locked mask takes that axis' freedom.

use crate::limits::{AXES, LINKS};
use crate::refusal::{Answer, Refusal::*};

/// All three axes.
pub const ALL: u8 = 7;
/// The axis of the angle.
pub const ANGLE: usize = 2;
/// What a free angle is damped by at first.
pub const ANGLE_DAMPING: f32 = 0.1;

pub fn is_mask(mask: u32) -> bool {
    mask <= ALL as u32
}

pub fn is_axis(axis: u32) -> bool {
    axis < AXES as u32
}

pub fn is_free(locked: u8, axis: usize) -> bool {
    locked >> axis & 1 == 0
}

/// The free axes, rising.
pub fn free_axes(locked: u8) -> impl Iterator<Item = usize> {
    (0..AXES).filter(move |&axis| is_free(locked, axis))
}

/// How many axes are free; bits above the third don't count.
pub fn dofs(locked: u8) -> usize {
    const FREE: [u8; 8] = [3, 2, 2, 1, 2, 1, 1, 0];
    FREE[(locked & ALL) as usize] as usize
}

/// How many axes below this one are free: the place of its DoF among its link's.
pub fn dofs_below(locked: u8, axis: usize) -> usize {
    dofs(locked | ALL << axis)
}

/// Rows that limits and motors ask for.
pub fn velocity_constraints(locked: u8, limit: u8, motor: u8) -> usize {
    dofs(locked | !limit) + dofs(locked | !motor)
}

/// What masks say of a joint.
#[derive(Clone, Copy, Debug, PartialEq)]
pub struct MaskCounts {
    pub dofs: usize,
    pub constraints: usize,
    damping: [f32; AXES],
}

impl MaskCounts {
    /// The default damping of each DoF.
    pub fn damping(&self) -> &[f32] {
        &self.damping[..self.dofs]
    }
}

/// DoFs, constraints and default damping under these masks, whatever their upper bits.
pub fn counts_of(locked: u8, limit: u8, motor: u8) -> MaskCounts {
    let dofs = dofs(locked);
    let mut damping = [0.0; AXES];
    if is_free(locked, ANGLE) {
        damping[dofs - 1] = ANGLE_DAMPING;
    }
    MaskCounts {
        dofs,
        constraints: velocity_constraints(locked, limit, motor),
        damping,
    }
}

/// The same for masks that a caller gives.
pub fn counts(locked: u32, limit: u32, motor: u32) -> Answer<MaskCounts> {
    Mask.when(!is_mask(locked) || !is_mask(limit) || !is_mask(motor))?;
    Ok(counts_of(locked as u8, limit as u8, motor as u8))
}

/// The start of each mask of a bare list, into `starts`; the answer is the total.
pub fn starts(masks: &[u32], starts: &mut [u8]) -> Answer<usize> {
    Short.when(starts.len() < masks.len())?;
    Full.when(masks.len() > LINKS)?;
    Mask.when(!masks.iter().all(|&mask| is_mask(mask)))?;
    let mut total = 0;
    for (start, &mask) in starts.iter_mut().zip(masks) {
        *start = total as u8;
        total += dofs(mask as u8);
    }
    Ok(total)
}

#[cfg(test)]
mod tests {
    use super::*;

    #[test]
    fn dofs_below_an_axis_are_the_free_axes_before_it() {
        for locked in 0..=255 {
            for axis in 0..AXES {
                assert_eq!(
                    dofs_below(locked, axis),
                    free_axes(locked).filter(|&a| a < axis).count()
                );
            }
            assert_eq!(dofs(locked), free_axes(locked).count());
        }
    }

    #[test]
    fn constraints_are_one_for_each_free_axis_of_a_mask() {
        for locked in 0..8u8 {
            for limit in 0..8u8 {
                for motor in 0..8u8 {
                    let one = |mask: u8| free_axes(locked).filter(|&a| mask >> a & 1 == 1).count();
                    assert_eq!(velocity_constraints(locked, limit, motor), one(limit) + one(motor));
                }
            }
        }
    }
}
