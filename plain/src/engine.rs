//! The plain reading as what answers a script.

use crate::arm::{Arm, RowName};
use crate::limits::{AXES, DOFS, LENT, PAST, TABLES};
use crate::masks;
use crate::point::Point;
use crate::pose::Pose;
use crate::refusal::Refusal;
use crate::root::RootType;
use crate::rotation::Rotation;
use crate::rows::{ConstraintRow, Limit, Vectors};
use crate::solve::solve;
use crate::split::Split;
use crate::tree::{NewLink, Role};
use script::{Answer, Coupling, Kept, LinkState, MaskCounts, NewCoupling, No, Poke};
use std::borrow::Cow;

/// An arm with its tables.
#[derive(Clone, Debug)]
pub struct Engine {
    pub arm: Arm,
    pub tables: Vec<f32>,
}

impl Default for Engine {
    fn default() -> Engine {
        let mut tables = vec![0.0; LENT];
        tables[TABLES..].fill(f32::from_bits(PAST));
        Engine {
            arm: Arm::EMPTY,
            tables,
        }
    }
}

impl From<Refusal> for No {
    fn from(refusal: Refusal) -> No {
        No::Refused(refusal.number())
    }
}

fn pose([re, im, x, y]: script::Pose) -> Pose {
    Pose::new(re, im, x, y)
}

fn point([x, y]: [f32; 2]) -> Point {
    Point { x, y }
}

fn told(row: ConstraintRow) -> script::ConstraintRow {
    script::ConstraintRow {
        bounds: [row.lower, row.upper],
        rhs: row.rhs,
        cfm_gain: row.cfm_gain,
        inv_lhs: row.inv_lhs,
    }
}

impl Engine {
    /// The arm, and as much of its tables as is lent.
    fn lent(&mut self, lent: usize) -> (&mut Arm, &mut [f32]) {
        let lent = self.tables.len().min(lent);
        (&mut self.arm, &mut self.tables[..lent])
    }
}

impl script::Engine for Engine {
    fn renew(&mut self) {
        *self = Engine::default();
    }

    fn make_empty(&mut self, lent: usize) -> Answer {
        let (arm, tables) = self.lent(lent);
        Ok(arm.make_empty(tables)?)
    }

    fn add_link(&mut self, lent: usize, new: &script::NewLink) -> Answer {
        let (arm, tables) = self.lent(lent);
        let new = NewLink {
            tag: new.tag,
            parent: new.parent,
            locked: new.locked,
            limit: new.limit,
            motor: new.motor,
            frame1: pose(new.frame1),
            frame2: pose(new.frame2),
            com: point(new.com),
        };
        Ok(arm.add_link(tables, &new)?)
    }

    fn add_coupling(&mut self, new: &NewCoupling) -> Answer {
        Ok(self.arm.add_coupling(new.links, new.axes, new.coeff, new.offset)?)
    }

    fn write_row(&mut self, row: RowName, link: u32, axis: u32, value: f32) -> Answer {
        Ok(self.arm.write_row(row, link, axis, value)?)
    }

    fn set_spring(&mut self, link: u32, axis: u32, stiffness: f32, rest: f32) -> Answer {
        Ok(self.arm.set_spring(link, axis, stiffness, rest)?)
    }

    fn move_coordinate(&mut self, lent: usize, link: u32, axis: u32, value: f32) -> Answer {
        let (arm, tables) = self.lent(lent);
        Ok(arm.move_coordinate(tables, link, axis, value)?)
    }

    fn move_frames(&mut self, lent: usize, link: u32, [frame1, frame2]: [script::Pose; 2]) -> Answer {
        let (arm, tables) = self.lent(lent);
        Ok(arm.move_frames(tables, link, pose(frame1), pose(frame2))?)
    }

    fn move_com(&mut self, lent: usize, link: u32, com: [f32; 2]) -> Answer {
        let (arm, tables) = self.lent(lent);
        Ok(arm.move_com(tables, link, point(com))?)
    }

    fn work_out(&mut self, lent: usize) -> Answer {
        let (arm, tables) = self.lent(lent);
        Ok(arm.work_out(tables)?)
    }

    fn step(&mut self, lent: usize, dt: f32) -> Answer {
        let (arm, tables) = self.lent(lent);
        Ok(arm.step(tables, dt)?)
    }

    fn change_root(&mut self, lent: usize, to: RootType, at: script::Pose) -> Answer {
        let (arm, tables) = self.lent(lent);
        Ok(arm.change_root(tables, to, pose(at))?)
    }

    fn take_part(&mut self, lent: usize, how: Split, link: u32, part: u32) -> Answer {
        let (arm, tables) = self.lent(lent);
        *arm = arm.part(how, link, part, tables)?;
        Ok(())
    }

    fn spring(&self, link: u32, axis: u32) -> Answer<[f32; 2]> {
        Ok(self.arm.spring(link, axis)?.into())
    }

    fn branch(&self, link: u32, branch: &mut [u8]) -> Answer<usize> {
        Ok(self.arm.kinematic_branch(link, branch)?)
    }

    fn view(&self, role: Role, link: u32, lent: usize) -> Answer<Vec<f32>> {
        let row = |row: RowName| &self.arm.row(row)[..DOFS.min(lent)];
        let (velocities, accelerations) = (row(RowName::Velocities), row(RowName::Accelerations));
        Ok(self.arm.row_view(role, link, velocities, accelerations)?.to_vec())
    }

    fn jacobian_mul_coordinates(&self, link: u32, accelerations: &[f32]) -> Answer<[f32; AXES]> {
        Ok(self.arm.jacobian_mul_coordinates(link, accelerations)?)
    }

    fn split(&self, how: Split, link: u32, map: &mut [u8]) -> Answer<usize> {
        Ok(self.arm.split(how, link, map)?)
    }

    fn masks(&self, locked: u32, limit: u32, motor: u32) -> Answer<MaskCounts> {
        let counts = masks::counts(locked, limit, motor)?;
        Ok(MaskCounts {
            dofs: counts.dofs,
            constraints: counts.constraints,
            damping: counts.damping().to_vec(),
        })
    }

    fn starts(&self, list: &[u32], starts: &mut [u8]) -> Answer<usize> {
        Ok(masks::starts(list, starts)?)
    }

    fn rotation(&self, angle: f32) -> Answer<[f32; 2]> {
        Ok(Rotation::at(angle)?.floats())
    }

    fn solve(&mut self, mass: &[f32], right: &[f32], result: &mut [f32]) -> Answer {
        Ok(solve(right.len(), mass, right, result)?)
    }

    fn limit_row(
        &mut self,
        mass: &[f32],
        link: u32,
        axis: u32,
        limit: &Limit,
        [j, wj]: [&mut [f32]; 2],
    ) -> Answer<script::ConstraintRow> {
        Ok(told(self.arm.limit_row(
            mass,
            link,
            axis,
            limit,
            &mut Vectors { j, wj },
        )?))
    }

    fn friction_row(
        &mut self,
        mass: &[f32],
        link: u32,
        axis: u32,
        dt: f32,
        cfm_coeff: f32,
        [j, wj]: [&mut [f32]; 2],
    ) -> Answer<script::ConstraintRow> {
        let out = &mut Vectors { j, wj };
        Ok(told(self.arm.friction_row(mass, link, axis, dt, cfm_coeff, out)?))
    }

    fn fill_jacobians(
        &mut self,
        lent: usize,
        mass: &[f32],
        link: u32,
        [x, y, torque]: [f32; 3],
        [j, wj]: [&mut [f32]; 2],
    ) -> Answer<[f32; 2]> {
        let (arm, tables) = self.lent(lent);
        let out = &mut Vectors { j, wj };
        Ok(arm.fill_jacobians(tables, mass, link, [x, y], torque, out)?.into())
    }

    fn counts(&self) -> [usize; 2] {
        [self.arm.link_count, self.arm.coupling_count]
    }

    fn link(&self, number: usize) -> LinkState {
        let link = &self.arm.links[number];
        let joint = &link.joint;
        LinkState {
            tag: link.tag,
            parent: link.parent.into(),
            locked: joint.locked,
            limit: joint.limit,
            motor: joint.motor,
            frame1: joint.frame1.floats(),
            frame2: joint.frame2.floats(),
            com: link.com.floats(),
            coords: joint.coords,
            rot: joint.rot.floats(),
            stiffness: joint.stiffness,
            rest: joint.rest,
        }
    }

    fn coupling(&self, number: usize) -> Coupling {
        let coupling = &self.arm.couplings[number];
        Coupling {
            link1: coupling.link1.into(),
            axis1: coupling.axis1.into(),
            link2: coupling.link2.into(),
            axis2: coupling.axis2.into(),
            coeff: coupling.coeff,
            offset: coupling.offset,
        }
    }

    fn row(&self, row: RowName) -> Cow<'_, [f32]> {
        Cow::Borrowed(self.arm.row(row))
    }

    fn kept(&self, link: usize) -> Kept {
        let kept = &self.arm.links[link].kept;
        Kept {
            pose: kept.pose.floats(),
            shift02: kept.shift02.floats(),
            shift23: kept.shift23.floats(),
        }
    }

    fn tables(&self) -> Option<&[f32]> {
        Some(&self.tables)
    }

    fn poke(&mut self, poke: Poke) -> Answer {
        let links = &mut self.arm.links;
        match poke {
            Poke::Links(count) => self.arm.link_count = count.into(),
            Poke::Couplings(count) => self.arm.coupling_count = count.into(),
            Poke::Tag(link, tag) => links[link].tag = tag,
            Poke::Parent(link, parent) => links[link].parent = parent,
            Poke::Locked(link, mask) => links[link].joint.locked = mask,
            Poke::Limit(link, mask) => links[link].joint.limit = mask,
            Poke::Motor(link, mask) => links[link].joint.motor = mask,
            Poke::Coordinate(link, axis, value) => links[link].joint.coords[axis] = value,
            Poke::Rotation(link, [re, im]) => links[link].joint.rot = Rotation { re, im },
            Poke::Pose(link, to) => links[link].kept.pose = pose(to),
            Poke::Coupling {
                at,
                link1,
                axis1,
                link2,
                axis2,
            } => {
                let coupling = &mut self.arm.couplings[at];
                (coupling.link1, coupling.axis1, coupling.link2, coupling.axis2) = (link1, axis1, link2, axis2);
            }
            Poke::Table(at, value) => self.tables[at] = value,
        }
        Ok(())
    }

    fn dofs(&self) -> usize {
        self.arm.dofs()
    }
}
