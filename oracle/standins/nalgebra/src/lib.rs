//! Stand-in for `nalgebra`: f32 only, column-major storage, plain loops.
//!
//! Only what the multibody_joint files ask for. Dimensions that don't fit panic, as in nalgebra. The order in which
//! sums are taken is this crate's own, so bits that depend on it say nothing about nalgebra.

mod dim;
mod lu;
mod matrix;
mod operators;
mod pseudo_inverse;
mod reading;
mod storage;
mod writing;

pub use dim::{Const, Dim, DimRange, Dyn, U1, U2, U3};
pub use lu::LU;
pub use matrix::*;
pub use storage::{ArrayStorage, Storage, StorageMut, VecStorage, ViewStorage, ViewStorageMut};
