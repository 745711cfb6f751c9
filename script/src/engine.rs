//! What answers a script: an arm with its lent memory.

use crate::command::Poke;
use crate::limits::{AXES, BLOCK, DOFS, LINKS};
use crate::terms::{
    ConstraintRow, Coupling, Kept, Limit, LinkState, MaskCounts, NewCoupling, NewLink, Pose, Role, RootType, RowName,
    Split,
};
use std::borrow::Cow;

/// Why a command has no answer.
#[derive(Clone, Copy, Debug, PartialEq, Eq)]
pub enum No {
    /// It is refused, by a number of document 01.
    Refused(u8),
    /// There is nothing to ask this engine.
    Unasked,
    /// The engine did what none may do, in these words.
    Wrong(&'static str),
}

pub type Answer<T = ()> = Result<T, No>;

/// An arm with its tables, which are `LENT` floats: calls are lent the first `lent` of them, or fewer.
///
/// Numbers of links, axes and masks are any. What a call writes beside the arm goes into slices that are lent as long as they are; a refusal leaves
/// everything as it was.
pub trait Engine {
    // ---- Making an arm

    /// An empty arm, its tables cleared, and what stands past them put there.
    fn renew(&mut self);
    /// An empty arm over the tables as they are.
    fn make_empty(&mut self, lent: usize) -> Answer;
    fn add_link(&mut self, lent: usize, new: &NewLink) -> Answer;
    fn add_coupling(&mut self, new: &NewCoupling) -> Answer;

    // ---- Edits

    fn write_row(&mut self, row: RowName, link: u32, axis: u32, value: f32) -> Answer;
    fn set_spring(&mut self, link: u32, axis: u32, stiffness: f32, rest: f32) -> Answer;
    fn move_coordinate(&mut self, lent: usize, link: u32, axis: u32, value: f32) -> Answer;
    fn move_frames(&mut self, lent: usize, link: u32, frames: [Pose; 2]) -> Answer;
    fn move_com(&mut self, lent: usize, link: u32, com: [f32; 2]) -> Answer;
    fn work_out(&mut self, lent: usize) -> Answer;
    fn step(&mut self, lent: usize, dt: f32) -> Answer;
    fn change_root(&mut self, lent: usize, to: RootType, pose: Pose) -> Answer;
    /// A part of a split takes the arm's place.
    fn take_part(&mut self, lent: usize, how: Split, link: u32, part: u32) -> Answer;

    // ---- Questions

    /// Stiffness and rest.
    fn spring(&self, link: u32, axis: u32) -> Answer<[f32; 2]>;
    /// The links from the root on, and their count.
    fn branch(&self, link: u32, branch: &mut [u8]) -> Answer<usize>;
    /// A link's own part of one of the arm's rows, of each of which `lent` floats are lent.
    fn view(&self, role: Role, link: u32, lent: usize) -> Answer<Vec<f32>>;
    fn jacobian_mul_coordinates(&self, link: u32, accelerations: &[f32]) -> Answer<[f32; AXES]>;
    /// Part and new number of each link, and the part count.
    fn split(&self, how: Split, link: u32, map: &mut [u8]) -> Answer<usize>;
    fn masks(&self, locked: u32, limit: u32, motor: u32) -> Answer<MaskCounts>;
    /// The start of each mask, and the total.
    fn starts(&self, masks: &[u32], starts: &mut [u8]) -> Answer<usize>;
    fn rotation(&self, angle: f32) -> Answer<[f32; 2]>;

    // ---- Solves

    /// As many unknowns as there are right sides.
    fn solve(&mut self, mass: &[f32], right: &[f32], result: &mut [f32]) -> Answer;
    fn limit_row(
        &mut self,
        mass: &[f32],
        link: u32,
        axis: u32,
        limit: &Limit,
        vectors: [&mut [f32]; 2],
    ) -> Answer<ConstraintRow>;
    fn friction_row(
        &mut self,
        mass: &[f32],
        link: u32,
        axis: u32,
        dt: f32,
        cfm_coeff: f32,
        vectors: [&mut [f32]; 2],
    ) -> Answer<ConstraintRow>;
    /// j·wj and j·velocities; the force is x, y and the torque.
    fn fill_jacobians(
        &mut self,
        lent: usize,
        mass: &[f32],
        link: u32,
        force: [f32; 3],
        vectors: [&mut [f32]; 2],
    ) -> Answer<[f32; 2]>;

    // ---- What is there, refused by nothing

    /// The counts of links and couplings as they are, though more may be said than fit.
    fn counts(&self) -> [usize; 2];
    fn link(&self, number: usize) -> LinkState;
    fn coupling(&self, number: usize) -> Coupling;
    /// A row, at least as long as there are DoFs.
    fn row(&self, row: RowName) -> Cow<'_, [f32]>;
    fn kept(&self, link: usize) -> Kept;
    /// The tables, and what is lent past them; none where an engine keeps its Jacobians elsewhere.
    fn tables(&self) -> Option<&[f32]>;
    /// A write past the calls.
    fn poke(&mut self, poke: Poke) -> Answer;

    /// The links, as far as there can be any.
    fn links(&self) -> usize {
        self.counts()[0].min(LINKS)
    }

    /// The DoFs of the links before this one.
    fn start(&self, link: usize) -> usize {
        let free = |number| (!self.link(number).locked & 7).count_ones() as usize;
        (0..link).map(free).sum()
    }

    fn dofs(&self) -> usize {
        self.start(self.links())
    }

    /// A row of a link's Jacobian, at least as long as there are DoFs.
    fn jacobian(&self, link: usize, row: usize) -> Cow<'_, [f32]> {
        let first = link * BLOCK + row * DOFS;
        let row = self.tables().and_then(|tables| tables.get(first..first + DOFS));
        Cow::Borrowed(row.unwrap_or_default())
    }
}
