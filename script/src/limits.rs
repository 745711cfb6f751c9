//! How large an arm may be.

/// Links of an arm.
pub const LINKS: usize = 16;
/// Couplings of an arm.
pub const COUPLINGS: usize = 8;
/// Axes of a joint: X, Y and the angle.
pub const AXES: usize = 3;
/// DoFs of an arm, and columns of a Jacobian block.
pub const DOFS: usize = AXES * LINKS;
/// Floats of one Jacobian block.
pub const BLOCK: usize = AXES * DOFS;
/// Floats that the Jacobian tables must have.
pub const TABLES: usize = LINKS * BLOCK;
/// Floats of the tables that a run lends: some past the end, to see that they are left alone.
pub const LENT: usize = TABLES + 16;
/// The bits of what stands in the floats past the end.
pub const PAST: u32 = 0x4B4B_4B4B;
