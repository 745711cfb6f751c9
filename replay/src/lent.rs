//! The exported functions, with an arm and tables that the caller keeps.
//!
//! What a script's answer doesn't show is looked at here: that a refused call left the arm and its tables as they were, that a refused part is the empty
//! arm, that none wrote tables which it wasn't lent, and that functions which answer the same question agree.

use crate::terms::{floats_of, limits, new_coupling, new_link, point, pose};
use giellavor::abi::{Arm, Counted, Edited, Force, Spring};
use giellavor::{DOFS, LINKS, TABLES, ffi, masks};
use script::limits::{AXES, LENT, PAST};
use script::{
    Answer, ConstraintRow, Coupling, Engine, Kept, Limit, LinkState, MaskCounts, No, Poke, Role, RootType, RowName,
    Split,
};
use std::borrow::Cow;

/// An arm where its calls leave it, and its tables.
#[derive(Clone, Debug)]
pub struct Lent {
    edited: Box<Edited>,
    tables: Vec<f32>,
}

/// A refusal's number, where 0 is none.
fn refused(number: u8) -> Answer {
    match number {
        0 => Ok(()),
        number => Err(No::Refused(number)),
    }
}

/// Whether no bit differs; that is seen without a branch for each float.
fn same_floats(a: &[f32], b: &[f32]) -> bool {
    let pairs = a.iter().zip(b);
    a.len() == b.len() && pairs.fold(0, |bits, (a, b)| bits | (a.to_bits() ^ b.to_bits())) == 0
}

/// What must hold of an answer, in words for where it doesn't.
fn held(holds: bool, words: &'static str) -> Answer {
    if holds { Ok(()) } else { Err(No::Wrong(words)) }
}

/// The count of an answer that isn't refused.
fn counted(answer: Counted) -> Answer<usize> {
    let Counted { refusal, count } = answer;
    held(refusal == 0 || count == 0, "refused, and counted")?;
    refused(refusal).map(|()| count)
}

fn new_tables() -> Vec<f32> {
    let mut tables = vec![0.0; LENT];
    tables[TABLES..].fill(f32::from_bits(PAST));
    tables
}

/// The arm of no links: it is answered over too little memory too.
fn empty_arm() -> Arm {
    ffi::empty(&mut []).arm
}

fn row_of(answer: &giellavor::abi::ConstraintRow) -> Answer<ConstraintRow> {
    refused(answer.refusal)?;
    Ok(ConstraintRow {
        bounds: [answer.lower, answer.upper],
        rhs: answer.rhs,
        cfm_gain: answer.cfm_gain,
        inv_lhs: answer.inv_lhs,
    })
}

impl Default for Lent {
    fn default() -> Lent {
        Lent::new()
    }
}

impl Lent {
    /// An empty arm.
    pub fn new() -> Lent {
        let mut tables = new_tables();
        let edited = Box::new(ffi::empty(&mut tables));
        Lent { edited, tables }
    }

    fn arm(&self) -> &Arm {
        &self.edited.arm
    }

    /// A call that gives another arm.
    fn edit(&mut self, call: impl FnOnce(&mut Edited) -> u8) -> Answer {
        let arm = *self.arm();
        let refusal = call(&mut self.edited);
        held(self.edited.refusal == refusal, "told two refusals")?;
        let kept = refusal == 0 || arm.bits().eq(self.arm().bits());
        held(kept, "refused, and the arm changed")?;
        refused(refusal)
    }

    /// The same with so many floats of the tables.
    fn call(&mut self, lent: usize, call: impl FnOnce(&mut Edited, &mut [f32]) -> u8) -> Answer {
        let lent = lent.min(LENT);
        let before = self.tables.clone();
        let mut tables = std::mem::take(&mut self.tables);
        let answer = self.edit(|edited| call(edited, &mut tables[..lent]));
        self.tables = tables;
        let writable = if answer.is_ok() { lent.min(TABLES) } else { 0 };
        let kept = same_floats(&before[writable..], &self.tables[writable..]);
        held(kept, "wrote tables that it may not")?;
        answer
    }

    fn parents(&self) -> Vec<u8> {
        let links = &self.arm().links[..self.links()];
        links.iter().map(|link| link.parent).collect()
    }
}

impl Engine for Lent {
    fn renew(&mut self) {
        *self = Lent::new();
    }

    fn make_empty(&mut self, lent: usize) -> Answer {
        self.call(lent, |edited, tables| {
            let answer = ffi::empty(tables);
            // A refused call has no arm to give.
            match answer.refusal {
                0 => *edited = answer,
                number => edited.refusal = number,
            }
            answer.refusal
        })
    }

    fn add_link(&mut self, lent: usize, new: &script::NewLink) -> Answer {
        self.call(lent, |edited, tables| ffi::add_link(edited, tables, new_link(new)))
    }

    fn add_coupling(&mut self, new: &script::NewCoupling) -> Answer {
        self.edit(|edited| ffi::add_coupling(edited, new_coupling(new)))
    }

    fn write_row(&mut self, row: RowName, link: u32, axis: u32, value: f32) -> Answer {
        let write = match row {
            RowName::Velocities => ffi::write_velocity,
            RowName::Damping => ffi::write_damping,
            RowName::Armature => ffi::write_armature,
            RowName::Frictions => ffi::write_friction,
            RowName::Accelerations => ffi::write_acceleration,
        };
        self.edit(|edited| write(edited, link, axis, value))
    }

    fn set_spring(&mut self, link: u32, axis: u32, stiffness: f32, rest: f32) -> Answer {
        self.edit(|edited| ffi::set_spring(edited, link, axis, Spring { stiffness, rest }))
    }

    fn move_coordinate(&mut self, lent: usize, link: u32, axis: u32, value: f32) -> Answer {
        self.call(lent, |edited, tables| {
            ffi::move_coordinate(edited, tables, link, axis, value)
        })
    }

    fn move_frames(&mut self, lent: usize, link: u32, [first, second]: [script::Pose; 2]) -> Answer {
        self.call(lent, |edited, tables| {
            ffi::move_frames(edited, tables, link, pose(first), pose(second))
        })
    }

    fn move_com(&mut self, lent: usize, link: u32, com: [f32; 2]) -> Answer {
        self.call(lent, |edited, tables| {
            ffi::move_centre(edited, tables, link, point(com))
        })
    }

    fn work_out(&mut self, lent: usize) -> Answer {
        self.call(lent, ffi::full_working)
    }

    fn step(&mut self, lent: usize, dt: f32) -> Answer {
        self.call(lent, |edited, tables| ffi::step(edited, tables, dt))
    }

    fn change_root(&mut self, lent: usize, to: RootType, at: script::Pose) -> Answer {
        let change = match to {
            RootType::Free => ffi::free_root,
            RootType::Fixed => ffi::fix_root,
        };
        self.call(lent, |edited, tables| change(edited, tables, pose(at)))
    }

    fn take_part(&mut self, lent: usize, how: Split, link: u32, part: u32) -> Answer {
        let take = match how {
            Split::Delete => ffi::part_delete,
            Split::Cut => ffi::part_cut,
        };
        let mut sound = true;
        let answer = self.call(lent, |edited, tables| {
            let answer = take(&edited.arm, link, part, tables);
            // The arm that is split stays as it is.
            match answer.refusal {
                0 => *edited = answer,
                number => {
                    edited.refusal = number;
                    sound = answer.arm.bits().eq(empty_arm().bits());
                }
            }
            answer.refusal
        });
        held(sound, "refused, and the part is not empty")?;
        answer
    }

    fn spring(&self, link: u32, axis: u32) -> Answer<[f32; 2]> {
        let answer = ffi::spring(self.arm(), link, axis);
        refused(answer.refusal)?;
        Ok([answer.spring.stiffness, answer.spring.rest])
    }

    fn branch(&self, link: u32, branch: &mut [u8]) -> Answer<usize> {
        let answer = ffi::kinematic_branch(self.arm(), link, branch);
        let count = counted(answer)?;
        let mut bare = vec![0; branch.len()];
        let by_parents = ffi::branch(&self.parents(), link, &mut bare);
        let same = by_parents == answer && bare.get(..count) == branch.get(..count);
        held(same, "another branch by bare parents")?;
        Ok(count)
    }

    fn view(&self, role: Role, link: u32, lent: usize) -> Answer<Vec<f32>> {
        let lent = lent.min(DOFS);
        let [velocities, .., accelerations] = &self.arm().rows;
        let (velocities, accelerations) = (&velocities.entries[..lent], &accelerations.entries[..lent]);
        let (row, part) = match role {
            Role::Velocities => (
                velocities,
                ffi::view_velocities(self.arm(), link, velocities, accelerations),
            ),
            Role::Accelerations => (
                accelerations,
                ffi::view_accelerations(self.arm(), link, velocities, accelerations),
            ),
        };
        refused(part.refusal)?;
        let own = row.get(part.offset..).and_then(|row| row.get(..part.length));
        own.map(<[f32]>::to_vec).ok_or(No::Wrong("a part past its row"))
    }

    fn jacobian_mul_coordinates(&self, link: u32, accelerations: &[f32]) -> Answer<[f32; AXES]> {
        let answer = ffi::jacobian_mul_coordinates(self.arm(), link, accelerations);
        refused(answer.refusal)?;
        Ok(answer.axes)
    }

    fn split(&self, how: Split, link: u32, map: &mut [u8]) -> Answer<usize> {
        let answer = match how {
            Split::Delete => ffi::arm_split_delete(self.arm(), link, map),
            Split::Cut => ffi::arm_split_cut(self.arm(), link, map),
        };
        let parts = counted(answer)?;
        let parents = self.parents();
        let mut bare = vec![0; 2 * parents.len()];
        let by_parents = match how {
            Split::Delete => ffi::split_delete(&parents, link, &mut bare),
            Split::Cut => ffi::split_cut(&parents, link, &mut bare),
        };
        let same = by_parents == answer && map.get(..bare.len()) == Some(&bare[..]);
        held(same, "another split by bare parents")?;
        Ok(parts)
    }

    fn masks(&self, locked: u32, limit: u32, motor: u32) -> Answer<MaskCounts> {
        let constraints = counted(ffi::num_velocity_constraints(locked, limit, motor))?;
        let dofs = counted(ffi::dof_count(locked))?;
        let mut damping = [0; 4 * AXES];
        let written = counted(ffi::default_damping(locked, &mut damping))?;
        held(written == dofs, "a damping for another count of DoFs")?;
        let mut below = 0;
        for axis in 0..AXES as u32 {
            let before = counted(ffi::dof_count_below(locked, axis))?;
            held(before == below, "another count of DoFs below an axis")?;
            below += counted(ffi::free_axis(locked, axis))?;
        }
        held(below == dofs, "another count of free axes")?;
        Ok(MaskCounts {
            dofs,
            constraints,
            damping: masks::floats(&damping[..4 * dofs]).collect(),
        })
    }

    fn starts(&self, masks: &[u32], starts: &mut [u8]) -> Answer<usize> {
        // A mask that is no byte is no mask either.
        let masks: Vec<u8> = masks
            .iter()
            .map(|&mask| u8::try_from(mask).unwrap_or(u8::MAX))
            .collect();
        counted(ffi::starts(&masks, starts))
    }

    fn rotation(&self, angle: f32) -> Answer<[f32; 2]> {
        let answer = ffi::rotate(angle);
        refused(answer.refusal)?;
        Ok([answer.rotation.re, answer.rotation.im])
    }

    fn solve(&mut self, mass: &[f32], right: &[f32], result: &mut [f32]) -> Answer {
        let count = counted(ffi::solve(right.len(), mass, right, result))?;
        held(count == right.len(), "a solution of another length")
    }

    fn limit_row(
        &mut self,
        mass: &[f32],
        link: u32,
        axis: u32,
        limit: &Limit,
        [j, wj]: [&mut [f32]; 2],
    ) -> Answer<ConstraintRow> {
        let given = limits(limit);
        row_of(&ffi::limit_row(self.arm(), link, axis, given, mass, j, wj))
    }

    fn friction_row(
        &mut self,
        mass: &[f32],
        link: u32,
        axis: u32,
        dt: f32,
        cfm_coeff: f32,
        [j, wj]: [&mut [f32]; 2],
    ) -> Answer<ConstraintRow> {
        row_of(&ffi::friction_row(self.arm(), link, axis, dt, cfm_coeff, mass, j, wj))
    }

    fn fill_jacobians(
        &mut self,
        lent: usize,
        mass: &[f32],
        link: u32,
        [x, y, torque]: [f32; 3],
        [j, wj]: [&mut [f32]; 2],
    ) -> Answer<[f32; 2]> {
        let force = Force { x, y, torque };
        let answer = ffi::fill_jacobians(self.arm(), link, force, &self.tables[..lent.min(LENT)], mass, j, wj);
        refused(answer.refusal)?;
        Ok([answer.j_wj, answer.j_velocities])
    }

    fn counts(&self) -> [usize; 2] {
        [self.arm().link_count, self.arm().coupling_count]
    }

    fn link(&self, number: usize) -> LinkState {
        let link = &self.arm().links[number];
        let joint = &link.joint;
        LinkState {
            tag: link.tag,
            parent: link.parent.into(),
            locked: joint.locked,
            limit: joint.limit,
            motor: joint.motor,
            frame1: floats_of(joint.frame1),
            frame2: floats_of(joint.frame2),
            com: [link.centre.x, link.centre.y],
            coords: joint.coordinates,
            rot: [joint.rotation.re, joint.rotation.im],
            stiffness: joint.stiffness,
            rest: joint.rest,
        }
    }

    fn coupling(&self, number: usize) -> Coupling {
        let coupling = &self.arm().couplings[number];
        Coupling {
            link1: coupling.link1.into(),
            axis1: coupling.axis1.into(),
            link2: coupling.link2.into(),
            axis2: coupling.axis2.into(),
            coeff: coupling.coefficient,
            offset: coupling.offset,
        }
    }

    fn row(&self, row: RowName) -> Cow<'_, [f32]> {
        Cow::Borrowed(&self.arm().rows[row as usize].entries)
    }

    fn kept(&self, link: usize) -> Kept {
        let link = &self.arm().links[link];
        Kept {
            pose: floats_of(link.world),
            shift02: [link.shift02.x, link.shift02.y],
            shift23: [link.shift23.x, link.shift23.y],
        }
    }

    fn tables(&self) -> Option<&[f32]> {
        Some(&self.tables)
    }

    fn poke(&mut self, poke: Poke) -> Answer {
        let arm = &mut self.edited.arm;
        let links = &mut arm.links;
        match poke {
            Poke::Links(count) => arm.link_count = count.into(),
            Poke::Couplings(count) => arm.coupling_count = count.into(),
            Poke::Tag(link, tag) => links[link].tag = tag,
            Poke::Parent(link, parent) => links[link].parent = parent,
            Poke::Locked(link, mask) => links[link].joint.locked = mask,
            Poke::Limit(link, mask) => links[link].joint.limit = mask,
            Poke::Motor(link, mask) => links[link].joint.motor = mask,
            Poke::Coordinate(link, axis, value) => links[link].joint.coordinates[axis] = value,
            Poke::Rotation(link, [re, im]) => links[link].joint.rotation = giellavor::Rotation { re, im },
            Poke::Pose(link, to) => links[link].world = pose(to),
            Poke::Coupling {
                at,
                link1,
                axis1,
                link2,
                axis2,
            } => {
                let coupling = &mut arm.couplings[at];
                (coupling.link1, coupling.axis1, coupling.link2, coupling.axis2) = (link1, axis1, link2, axis2);
            }
            Poke::Table(at, value) => self.tables[at] = value,
        }
        Ok(())
    }

    /// As the library counts them, where it takes the arm; else by the masks' bits.
    fn start(&self, link: usize) -> usize {
        let by_masks = |number: usize| (!self.arm().links[number].joint.locked & 7).count_ones() as usize;
        let answer = match link < self.links() {
            true => ffi::link_start(self.arm(), link as u32),
            false => ffi::arm_dofs(self.arm()),
        };
        match answer.refusal {
            0 => answer.count,
            _ => (0..link.min(LINKS)).map(by_masks).sum(),
        }
    }
}
