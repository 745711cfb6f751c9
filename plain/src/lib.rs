//! A plain Rust reading of document 01: a planar arm and every call on it, module by module in the order of that
//! document.
//!
//! It shares no text with the proved library. It is what that library is compared with, and what its times are
//! measured against.

pub mod floats;
pub mod limits;
pub mod refusal;

pub mod masks;

pub mod point;
pub mod rotation;

pub mod pose;

pub mod joint;

pub mod arm;
pub mod tree;

pub mod split;

pub mod root;

pub mod kinematics;
pub mod moves;

pub mod solve;

pub mod rows;

mod engine;

pub use arm::{Arm, Coupling, Link, RowName};
pub use engine::Engine;
pub use joint::Joint;
pub use point::Point;
pub use pose::Pose;
pub use refusal::{Answer, Refusal};
pub use rotation::Rotation;
