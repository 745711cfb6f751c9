#![doc = include_str!("../README.md")]
#![deny(unsafe_op_in_unsafe_fn)]
#![deny(unsafe_code)]
#![deny(missing_docs, clippy::missing_errors_doc, clippy::must_use_candidate)]
// No call may panic.
#![deny(
    clippy::indexing_slicing,
    clippy::unwrap_used,
    clippy::expect_used,
    clippy::panic,
    clippy::unreachable
)]

pub mod abi;
mod archive;
mod arm;
mod bits;
mod constraint;
pub mod ffi;
mod given;
mod limits;
mod link;
pub mod masks;
mod outline;
mod pose;
mod reading;
mod refusal;
pub mod rotation;
mod row;
pub mod solve;
pub mod split;
pub mod tree;
mod which;

pub use abi::{Coupling, Force, Joint, Limits, Point, Pose, Rotation, Spring};
pub use arm::Arm;
pub use constraint::{ConstraintRow, Lent, Sums};
pub use given::{NewCoupling, NewLink};
pub use limits::{BLOCK, COUPLINGS, DOFS, LINKS, TABLES};
pub use link::LinkView;
pub use pose::axis;
pub use refusal::Refusal;
pub use row::{Role, RowName};
pub use split::{Place, Split};
pub use which::{Tag, Which};

#[cfg(doctest)]
#[doc = include_str!(concat!(env!("OUT_DIR"), "/readme.md"))]
struct Readme;
