//! How large an arm may be, and how far a joint may wind.

pub use script::limits::{AXES, BLOCK, COUPLINGS, DOFS, LENT, LINKS, PAST, TABLES};

/// How far a joint may wind, either way.
pub const MOST_ANGLE: f32 = 256.0;
