//! rapier2d's multibody_joint files, unmodified, among stand-ins for the rest, and [`Arm`]: what may be asked of them.
#![allow(dead_code)] // The files hold more than the oracle asks for.

pub mod alloc_prelude {
    pub use std::{boxed::Box, vec, vec::Vec};
}
pub mod data {
    pub mod arena {
        #[derive(Copy, Clone, Debug, PartialEq, Eq, Hash, Default)]
        pub struct Index(u32, u32);
        impl Index {
            pub fn into_raw_parts(self) -> (u32, u32) {
                (self.0, self.1)
            }
            pub fn from_raw_parts(index: u32, generation: u32) -> Self {
                Self(index, generation)
            }
        }
    }
}
pub mod prelude {
    pub use crate::dynamics::{MultibodyJoint, RigidBodyVelocity};
}
pub(crate) const INVALID_U32: u32 = u32::MAX;

mod arm;
mod dynamics;
mod later;
mod math;
mod utils;

pub use arm::{Arm, Coupling, FilledJacobian, Link, LinkState, Row, RowConstraint, Softness, masks, rotation, starts};
pub use later::{Body, inv, inverse_kinematics};
