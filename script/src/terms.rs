//! What a script speaks of, in the terms of document 01. A pose is its four floats: re, im, x, y.

use crate::limits::AXES;

/// Rotation (re, im) and translation (x, y).
pub type Pose = [f32; 4];

/// The five rows.
#[derive(Clone, Copy, Debug, PartialEq, Eq)]
#[repr(u8)]
pub enum RowName {
    Velocities,
    Damping,
    Armature,
    Frictions,
    Accelerations,
}

impl RowName {
    /// Each row with its word.
    pub const WORDS: [(&str, RowName); 5] = [
        ("vel", RowName::Velocities),
        ("damp", RowName::Damping),
        ("arm", RowName::Armature),
        ("fric", RowName::Frictions),
        ("acc", RowName::Accelerations),
    ];
}

/// Which of two lent rows is asked for.
#[derive(Clone, Copy, Debug, PartialEq, Eq)]
pub enum Role {
    Velocities,
    Accelerations,
}

impl Role {
    pub const WORDS: [(&str, Role); 2] = [("vel", Role::Velocities), ("acc", Role::Accelerations)];
}

/// What a root is changed to.
#[derive(Clone, Copy, Debug, PartialEq, Eq)]
pub enum RootType {
    Free,
    Fixed,
}

impl RootType {
    pub const WORDS: [(&str, RootType); 2] = [("free", RootType::Free), ("fixed", RootType::Fixed)];
}

/// How an arm is split at a link.
#[derive(Clone, Copy, Debug, PartialEq, Eq)]
pub enum Split {
    /// The link goes.
    Delete,
    /// Only its joint goes.
    Cut,
}

impl Split {
    pub const WORDS: [(&str, Split); 2] = [("delete", Split::Delete), ("cut", Split::Cut)];
}

/// What is given of a new link.
#[derive(Clone, Copy, Debug)]
pub struct NewLink {
    pub tag: u32,
    pub parent: u32,
    pub locked: u32,
    pub limit: u32,
    pub motor: u32,
    pub frame1: Pose,
    pub frame2: Pose,
    pub com: [f32; 2],
}

/// What is given of a new coupling.
#[derive(Clone, Copy, Debug)]
pub struct NewCoupling {
    pub links: [u32; 2],
    pub axes: [u32; 2],
    pub coeff: f32,
    pub offset: f32,
}

/// What is given of a limit.
#[derive(Clone, Copy, Debug)]
pub struct Limit {
    pub pos: f32,
    pub min: f32,
    pub max: f32,
    pub dt: f32,
    pub erp_inv_dt: f32,
    pub cfm_coeff: f32,
}

/// The values of a constraint row beside its J and WJ.
#[derive(Clone, Copy, Debug)]
pub struct ConstraintRow {
    pub bounds: [f32; 2],
    pub rhs: f32,
    pub cfm_gain: f32,
    pub inv_lhs: f32,
}

/// What masks tell.
#[derive(Clone, Debug, PartialEq)]
pub struct MaskCounts {
    pub dofs: usize,
    pub constraints: usize,
    /// The default damping, a float for each DoF.
    pub damping: Vec<f32>,
}

/// A link as it is there.
#[derive(Clone, Copy, Debug)]
pub struct LinkState {
    pub tag: u32,
    pub parent: u32,
    pub locked: u8,
    pub limit: u8,
    pub motor: u8,
    pub frame1: Pose,
    pub frame2: Pose,
    pub com: [f32; 2],
    pub coords: [f32; AXES],
    pub rot: [f32; 2],
    pub stiffness: [f32; AXES],
    pub rest: [f32; AXES],
}

/// A coupling as it is there.
#[derive(Clone, Copy, Debug)]
pub struct Coupling {
    pub link1: u32,
    pub axis1: u32,
    pub link2: u32,
    pub axis2: u32,
    pub coeff: f32,
    pub offset: f32,
}

/// What is kept of a link.
#[derive(Clone, Copy, Debug)]
pub struct Kept {
    pub pose: Pose,
    pub shift02: [f32; 2],
    pub shift23: [f32; 2],
}
