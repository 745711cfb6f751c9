//! The tree of links: additions, row writes, couplings, springs, branches and views of rows.

use crate::arm::{Arm, Coupling, Kept, Link, RowName, is_root_mask, misplaces};
use crate::floats::finite;
use crate::joint::Joint;
use crate::kinematics::{Working, block_of, blocks_of};
use crate::limits::{AXES, COUPLINGS, LINKS, TABLES};
use crate::masks::{self, is_axis, is_mask};
use crate::point::Point;
use crate::pose::Pose;
use crate::refusal::{Answer, Refusal::*};

pub use script::Role;
use std::iter::successors;

/// A link as a caller asks for it.
#[derive(Clone, Copy, Debug)]
pub struct NewLink {
    pub tag: u32,
    pub parent: u32,
    pub locked: u32,
    pub limit: u32,
    pub motor: u32,
    pub frame1: Pose,
    pub frame2: Pose,
    pub com: Point,
}

/// The links from this one up to the root, as far as parents are earlier; none without such a link.
fn upwards(parents: &[u8], link: u32) -> impl Iterator<Item = usize> {
    let parent = |&link: &usize| Some(parents[link] as usize).filter(|&parent| parent < link);
    successors(Some(link as usize).filter(|&link| link < parents.len()), parent)
}

fn write_branch(parents: &[u8], link: u32, branch: &mut [u8]) -> usize {
    for (place, at) in branch.iter_mut().rev().zip(upwards(parents, link)) {
        *place = at as u8;
    }
    branch.len()
}

/// The links from the root to one of a bare list of parents, into `branch`; the answer is how many.
pub fn branch(parents: &[u8], link: u32, branch: &mut [u8]) -> Answer<usize> {
    let length = upwards(parents, link).count();
    Short.when(branch.len() < length)?;
    Full.when(parents.len() > LINKS)?;
    Number.when(length == 0 || misplaces(parents))?;
    Ok(write_branch(parents, link, &mut branch[..length]))
}

impl Arm {
    /// Add a link at the end, and work out its place and block from its parent's.
    pub fn add_link(&mut self, tables: &mut [f32], new: &NewLink) -> Answer {
        let count = self.links().len();
        self.tested(|rule| match rule {
            Short => tables.len() < TABLES,
            Full => count == LINKS,
            Tag => self.has_tag(new.tag),
            Number => {
                if count == 0 {
                    new.parent != 0
                } else {
                    !self.has_link(new.parent)
                }
            }
            Mask => {
                let bad = |mask: u32| !is_mask(mask);
                bad(new.locked) || bad(new.limit) || bad(new.motor) || count == 0 && !is_root_mask(new.locked)
            }
            NotFinite => {
                !(new.frame1.is_finite() && new.frame2.is_finite() && new.com.is_finite())
                    || count > 0 && !finite(block_of(tables, new.parent as usize))
            }
            NotUnit => !new.frame1.rot.is_unit() || !new.frame2.rot.is_unit(),
            _ => false,
        })?;
        let (locked, limit, motor) = (new.locked as u8, new.limit as u8, new.motor as u8);
        let mut link = Link {
            tag: new.tag,
            parent: new.parent as u8,
            joint: Joint::new(locked, limit, motor, new.frame1, new.frame2),
            com: new.com,
            kept: Kept::NONE,
        };
        let start = self.dofs();
        let tables = blocks_of(tables);
        let mut working = Working::<1>::new();
        working.work(
            count,
            start,
            |i| if i == count { &link } else { &self.links[i] },
            tables,
        )?;
        working.write(|_, kept| link.kept = kept, tables);

        let counts = masks::counts_of(locked, limit, motor);
        for row in &mut self.rows {
            row[start..start + counts.dofs].fill(0.0);
        }
        self.rows[RowName::Damping as usize][start..start + counts.dofs].copy_from_slice(counts.damping());
        self.links[count] = link;
        self.link_count = count + 1;
        Ok(())
    }

    /// Set one entry of a row.
    pub fn write_row(&mut self, row: RowName, link: u32, axis: u32, value: f32) -> Answer {
        self.tested(|rule| match rule {
            Number => !self.has_link(link),
            Mask => !is_axis(axis),
            Locked => self.locks(link, axis),
            NotFinite => !value.is_finite(),
            _ => false,
        })?;
        let dof = self.dof(link as usize, axis as usize);
        self.rows[row as usize][dof] = value;
        Ok(())
    }

    /// Tie two axes together; locked ones too.
    pub fn add_coupling(&mut self, links: [u32; 2], axes: [u32; 2], coeff: f32, offset: f32) -> Answer {
        self.tested(|rule| match rule {
            Full => self.coupling_count == COUPLINGS,
            Number => !self.has_link(links[0]) || !self.has_link(links[1]),
            Mask => !is_axis(axes[0]) || !is_axis(axes[1]),
            NotFinite => !coeff.is_finite() || !offset.is_finite(),
            _ => false,
        })?;
        self.couplings[self.coupling_count] = Coupling {
            link1: links[0] as u8,
            axis1: axes[0] as u8,
            link2: links[1] as u8,
            axis2: axes[1] as u8,
            coeff,
            offset,
        };
        self.coupling_count += 1;
        Ok(())
    }

    /// Set the spring of an axis, locked or not.
    pub fn set_spring(&mut self, link: u32, axis: u32, stiffness: f32, rest: f32) -> Answer {
        self.tested(|rule| match rule {
            Number => !self.has_link(link),
            Mask => !is_axis(axis),
            NotFinite => !stiffness.is_finite() || !rest.is_finite(),
            _ => false,
        })?;
        let joint = &mut self.links[link as usize].joint;
        joint.stiffness[axis as usize] = stiffness;
        joint.rest[axis as usize] = rest;
        Ok(())
    }

    /// Stiffness and rest of an axis.
    pub fn spring(&self, link: u32, axis: u32) -> Answer<(f32, f32)> {
        self.tested(|rule| match rule {
            Number => !self.has_link(link),
            Mask => !is_axis(axis),
            _ => false,
        })?;
        let joint = &self.links[link as usize].joint;
        Ok((joint.stiffness[axis as usize], joint.rest[axis as usize]))
    }

    /// The joint's accelerations on their axes; `accelerations` begin with the link's own.
    pub fn jacobian_mul_coordinates(&self, link: u32, accelerations: &[f32]) -> Answer<[f32; AXES]> {
        let dofs = if self.has_link(link) {
            self.links[link as usize].joint.dofs()
        } else {
            0
        };
        self.tested(|rule| match rule {
            Short => accelerations.len() < dofs,
            Number => !self.has_link(link),
            NotFinite => !finite(&accelerations[..dofs]),
            _ => false,
        })?;
        Ok(self.links[link as usize].joint.jacobian_mul_coordinates(accelerations))
    }

    /// The links from the root to this one, into `branch`; the answer is how many.
    pub fn kinematic_branch(&self, link: u32, branch: &mut [u8]) -> Answer<usize> {
        let parents: Vec<u8> = self.links().iter().map(|link| link.parent).collect();
        let length = upwards(&parents, link).count();
        self.tested(|rule| match rule {
            Short => branch.len() < length,
            Number => !self.has_link(link),
            _ => false,
        })?;
        Ok(write_branch(&parents, link, &mut branch[..length]))
    }

    /// A link's own part of the one or the other slice; both are to hold a float for each DoF.
    pub fn row_view<'a>(
        &self,
        role: Role,
        link: u32,
        velocities: &'a [f32],
        accelerations: &'a [f32],
    ) -> Answer<&'a [f32]> {
        self.tested(|rule| match rule {
            Short => velocities.len().min(accelerations.len()) < self.dofs(),
            Number => !self.has_link(link),
            _ => false,
        })?;
        let link = link as usize;
        let start = self.start(link);
        let row = match role {
            Role::Velocities => velocities,
            Role::Accelerations => accelerations,
        };
        Ok(&row[start..start + self.links[link].joint.dofs()])
    }
}
