//! The structs that cross the boundary, name for name and field for field as the Rattle source has them.
//!
//! Each holds numbers alone, so that every value of every field is one that the library takes; what it makes of it, it says by a refusal.
//!
//! # What keeps an arm's picture fresh
//!
//! [`crate::Arm`] sees to it that nothing that is kept of an arm is ever stale. Who holds an [`Arm`] and its tables themselves, for [`ffi`](crate::ffi),
//! has the same where they keep to this:
//!
//! - **Begin** with an arm that was made over these tables, by a call that was not refused: by `ffi::empty`, as a part of a split (`ffi::part_delete`,
//!   `ffi::part_cut`), or by `ffi::full_working`.
//! - **The same tables** go with the arm into every call that takes tables. Each arm has tables of its own.
//! - **Nobody else writes** the arm or the first [`TABLES`](crate::TABLES) floats of its tables: every edit is a call, and its answer's arm is the arm
//!   from then on. A refused one answers the arm as it came. A part is another arm than the one that is split; refused, it is the empty arm, beside
//!   tables that are as they were, and nothing begins with it.
//!
//! Then after any calls, refused ones included, every pose, shift and float of the tables is bit for bit what the full working gives. Whether it is so,
//! [`Arm::is_settled`] says; after a write past the library a full working makes it so again, and [`crate::Arm::from_state`] takes such an arm over.
//! What is broken is refused by every call; what is stale only is refused by none: a call can't tell.

use crate::limits::{COUPLINGS, DOFS, LINKS};

// ---- The plane

/// Cosine and sine of an angle.
#[repr(C)]
#[derive(Clone, Copy, Debug, PartialEq)]
pub struct Rotation {
    /// The cosine.
    pub re: f32,
    /// The sine.
    pub im: f32,
}

/// A point of the plane, or a shift.
#[repr(C)]
#[derive(Clone, Copy, Debug, Default, PartialEq)]
pub struct Point {
    /// Along X.
    pub x: f32,
    /// Along Y.
    pub y: f32,
}

/// A rotation and a translation.
#[repr(C)]
#[derive(Clone, Copy, Debug, PartialEq)]
pub struct Pose {
    /// The cosine of its angle.
    pub re: f32,
    /// The sine of its angle.
    pub im: f32,
    /// The translation along X.
    pub x: f32,
    /// The translation along Y.
    pub y: f32,
}

// ---- An arm

/// A joint between a link and its parent: which axes are free, where its frames stand, and where it is along its axes.
/// Bit 0 of a mask is X, bit 1 is Y, bit 2 the angle.
#[repr(C)]
#[derive(Clone, Copy, Debug, PartialEq)]
pub struct Joint {
    /// The axes that are locked; all others are free.
    pub locked: u8,
    /// The axes that have a limit.
    pub limit: u8,
    /// The axes that have a motor.
    pub motor: u8,
    /// Where the joint stands on the parent.
    pub frame1: Pose,
    /// Where the joint stands on the link.
    pub frame2: Pose,
    /// Where it is along X and Y, and its angle.
    pub coordinates: [f32; 3],
    /// The joint rotation, which a free angle renews.
    pub rotation: Rotation,
    /// The stiffness of the spring of each axis.
    pub stiffness: [f32; 3],
    /// Where the spring of each axis is at rest.
    pub rest: [f32; 3],
}

/// The spring of an axis.
#[repr(C)]
#[derive(Clone, Copy, Debug, Default, PartialEq)]
pub struct Spring {
    /// The stiffness.
    pub stiffness: f32,
    /// Where it is at rest.
    pub rest: f32,
}

/// A link, and what is kept of it: its world pose and its shifts.
#[repr(C)]
#[derive(Clone, Copy, Debug, PartialEq)]
pub struct Link {
    /// Its tag, unique in the arm.
    pub tag: u32,
    /// Its parent's number, below its own; 0 for the root.
    pub parent: u8,
    /// Its joint.
    pub joint: Joint,
    /// Its centre of mass, as the link sees it.
    pub centre: Point,
    /// Kept: its pose in the world.
    pub world: Pose,
    /// Kept: from the parent's centre of mass to the joint.
    pub shift02: Point,
    /// Kept: from the joint to the own centre of mass.
    pub shift23: Point,
}

/// Two axes of two links, tied by a coefficient and an offset.
#[repr(C)]
#[derive(Clone, Copy, Debug, Default, PartialEq)]
pub struct Coupling {
    /// The number of the one link.
    pub link1: u8,
    /// Its axis.
    pub axis1: u8,
    /// The number of the other link, or the same.
    pub link2: u8,
    /// Its axis.
    pub axis2: u8,
    /// The coefficient.
    pub coefficient: f32,
    /// The offset.
    pub offset: f32,
}

/// A row over the degrees of freedom.
#[repr(C)]
#[derive(Clone, Copy, Debug, PartialEq)]
pub struct Row {
    /// An entry for each degree of freedom; those behind them count for nothing.
    pub entries: [f32; DOFS],
}

/// An arm: lists count up to their counts, and what stands behind is read by no call. `==` compares all of it, and floats by their values;
/// [`crate::Arm`] is compared up to the counts, and by bits.
#[repr(C)]
#[derive(Clone, Copy, Debug, PartialEq)]
pub struct Arm {
    /// How many links there are.
    pub link_count: usize,
    /// How many couplings there are.
    pub coupling_count: usize,
    /// The links, the root first.
    pub links: [Link; LINKS],
    /// The couplings, in the order in which they were added.
    pub couplings: [Coupling; COUPLINGS],
    /// Velocities, damping, armature, frictions and accelerations.
    pub rows: [Row; 5],
}

// ---- What is given

/// What is given of a new link, its parent by number ([`crate::NewLink`] takes a tag too). Its coordinates and springs start as zeros. Numbers are any:
/// none is cut.
#[repr(C)]
#[derive(Clone, Copy, Debug, PartialEq)]
pub struct NewLink {
    /// Its tag, which no other link of the arm has.
    pub tag: u32,
    /// Its parent's number; 0 for a first link.
    pub parent: u32,
    /// The axes that are locked; 7 or 0 for a first link.
    pub locked: u32,
    /// The axes that have a limit.
    pub limit: u32,
    /// The axes that have a motor.
    pub motor: u32,
    /// Where the joint stands on the parent.
    pub frame1: Pose,
    /// Where the joint stands on the link.
    pub frame2: Pose,
    /// Its centre of mass.
    pub centre: Point,
}

/// A coupling as it is given: two links with an axis each, of any numbers ([`crate::NewCoupling`] takes tags too).
#[repr(C)]
#[derive(Clone, Copy, Debug, Default, PartialEq)]
pub struct NewCoupling {
    /// The number of the one link.
    pub link1: u32,
    /// Its axis.
    pub axis1: u32,
    /// The number of the other link, or the same.
    pub link2: u32,
    /// Its axis.
    pub axis2: u32,
    /// The coefficient.
    pub coefficient: f32,
    /// The offset.
    pub offset: f32,
}

/// What is given of a limit.
#[repr(C)]
#[derive(Clone, Copy, Debug, Default, PartialEq)]
pub struct Limits {
    /// Where the axis is.
    pub position: f32,
    /// The least that it may be.
    pub min: f32,
    /// The most that it may be.
    pub max: f32,
    /// The length of a step.
    pub dt: f32,
    /// How much of the trespass a step takes back, over its length.
    pub erp_inv_dt: f32,
    /// The coefficient of the gain.
    pub cfm_coeff: f32,
}

/// A force and a torque on a link.
#[repr(C)]
#[derive(Clone, Copy, Debug, Default, PartialEq)]
pub struct Force {
    /// The force along X.
    pub x: f32,
    /// The force along Y.
    pub y: f32,
    /// The torque.
    pub torque: f32,
}

// ---- Answers: a refusal or 0, then what is asked for; zeros where refused, but for an arm

/// The new arm; refused, the arm as it came, and where an arm is made (`ffi::empty`, the parts) the empty one.
#[repr(C)]
#[derive(Clone, Copy, Debug, PartialEq)]
pub struct Edited {
    /// The arm.
    pub arm: Arm,
    /// A refusal's number, or 0.
    pub refusal: u8,
}

/// A rotation.
#[repr(C)]
#[derive(Clone, Copy, Debug, PartialEq)]
pub struct Rotated {
    /// A refusal's number, or 0.
    pub refusal: u8,
    /// The rotation.
    pub rotation: Rotation,
}

/// A count: of DoFs, of constraints, of parts, or of what was written into lent memory.
#[repr(C)]
#[derive(Clone, Copy, Debug, PartialEq, Eq)]
pub struct Counted {
    /// A refusal's number, or 0.
    pub refusal: u8,
    /// The count.
    pub count: usize,
}

/// Where a link's own part of a lent row stands in it.
#[repr(C)]
#[derive(Clone, Copy, Debug, PartialEq, Eq)]
pub struct RowPart {
    /// A refusal's number, or 0.
    pub refusal: u8,
    /// Where it begins.
    pub offset: usize,
    /// How many floats it has.
    pub length: usize,
}

/// A spring.
#[repr(C)]
#[derive(Clone, Copy, Debug, PartialEq)]
pub struct SpringAnswer {
    /// A refusal's number, or 0.
    pub refusal: u8,
    /// The spring.
    pub spring: Spring,
}

/// A value for each axis. `ffi::jacobian_mul_coordinates` makes it of a slice that begins with the link's own entries, one for each of its free axes: it is
/// not handed the whole row.
#[repr(C)]
#[derive(Clone, Copy, Debug, PartialEq)]
pub struct AxesAnswer {
    /// A refusal's number, or 0.
    pub refusal: u8,
    /// X, Y and the angle.
    pub axes: [f32; 3],
}

/// A constraint row: between which bounds its impulse lies, its right side, and the gains of its DoF.
#[repr(C)]
#[derive(Clone, Copy, Debug, PartialEq)]
pub struct ConstraintRow {
    /// A refusal's number, or 0.
    pub refusal: u8,
    /// The lower bound of the impulse.
    pub lower: f32,
    /// The upper bound of the impulse.
    pub upper: f32,
    /// The right side.
    pub rhs: f32,
    /// WJ at the degree of freedom, times the coefficient that was given.
    pub cfm_gain: f32,
    /// One over the sum of WJ at the degree of freedom and `cfm_gain`; 0 where that is zero.
    pub inv_lhs: f32,
}

/// j·wj and j·velocities.
#[repr(C)]
#[derive(Clone, Copy, Debug, PartialEq)]
pub struct Sums {
    /// A refusal's number, or 0.
    pub refusal: u8,
    /// j·wj.
    pub j_wj: f32,
    /// j·velocities.
    pub j_velocities: f32,
}
