//! The arm that keeps its own memory, by its methods. A link that there is goes by its number or by its tag, in turn, so that both are seen.
//!
//! It can't be handed a broken arm or short memory: such commands aren't asked of it.

use crate::terms::{floats_of, limits, new_coupling, new_link, point, pose};
use giellavor::{
    Arm, Force, Lent, LinkView, NewCoupling, NewLink, Refusal, Role, RowName, Spring, TABLES, Which, masks, rotation,
    solve,
};
use script::limits::AXES;
use script::{Answer, ConstraintRow, Coupling, Engine, Kept, Limit, LinkState, MaskCounts, No, Poke, RootType, Split};
use std::borrow::Cow;

/// An arm.
#[derive(Clone, Debug, Default)]
pub struct Owned {
    arm: Arm,
}

fn no(refusal: Refusal) -> No {
    No::Refused(refusal.number())
}

/// A number of an arm's link or part.
fn byte(number: impl TryInto<u8>) -> Answer<u8> {
    number
        .try_into()
        .map_err(|_| No::Wrong("told a number that no link or part has"))
}

/// The arm's tables are always lent in full.
fn in_full(lent: usize, call: impl FnOnce() -> Result<(), Refusal>) -> Answer {
    if lent < TABLES {
        return Err(No::Unasked);
    }
    call().map_err(no)
}

fn row_name(row: script::RowName) -> RowName {
    match row {
        script::RowName::Velocities => RowName::Velocities,
        script::RowName::Damping => RowName::Damping,
        script::RowName::Armature => RowName::Armature,
        script::RowName::Frictions => RowName::Frictions,
        script::RowName::Accelerations => RowName::Accelerations,
    }
}

fn row_of(row: giellavor::ConstraintRow) -> ConstraintRow {
    ConstraintRow {
        bounds: [row.lower, row.upper],
        rhs: row.rhs,
        cfm_gain: row.cfm_gain,
        inv_lhs: row.inv_lhs,
    }
}

impl Owned {
    /// A link by its tag, if there is one and its number is odd.
    fn which(&self, link: u32) -> Which {
        match self.arm.link(link) {
            Ok(view) if link % 2 == 1 => view.tag().into(),
            _ => link.into(),
        }
    }

    fn split_of(&self, how: Split, link: u32) -> giellavor::Split {
        match how {
            Split::Delete => giellavor::Split::delete(self.which(link)),
            Split::Cut => giellavor::Split::cut(self.which(link)),
        }
    }

    fn view_of(&self, number: usize) -> Option<LinkView<'_>> {
        self.arm.links().nth(number)
    }
}

impl Engine for Owned {
    fn renew(&mut self) {
        *self = Owned::default();
    }

    fn make_empty(&mut self, lent: usize) -> Answer {
        in_full(lent, || {
            self.arm = Arm::new();
            Ok(())
        })
    }

    fn add_link(&mut self, lent: usize, new: &script::NewLink) -> Answer {
        let link = NewLink {
            parent: self.which(new.parent),
            ..new_link(new).into()
        };
        let number = self.arm.link_count();
        let mut added = number;
        in_full(lent, || {
            added = self.arm.add_link(link)?;
            Ok(())
        })?;
        match added == number {
            true => Ok(()),
            false => Err(No::Wrong("told another number for the new link")),
        }
    }

    fn add_coupling(&mut self, new: &script::NewCoupling) -> Answer {
        let coupling = NewCoupling {
            link1: self.which(new.links[0]),
            link2: self.which(new.links[1]),
            ..new_coupling(new).into()
        };
        self.arm.add_coupling(coupling).map_err(no)
    }

    fn write_row(&mut self, row: script::RowName, link: u32, axis: u32, value: f32) -> Answer {
        let link = self.which(link);
        self.arm.write_row(row_name(row), link, axis, value).map_err(no)
    }

    fn set_spring(&mut self, link: u32, axis: u32, stiffness: f32, rest: f32) -> Answer {
        let link = self.which(link);
        self.arm.set_spring(link, axis, Spring { stiffness, rest }).map_err(no)
    }

    fn move_coordinate(&mut self, lent: usize, link: u32, axis: u32, value: f32) -> Answer {
        let link = self.which(link);
        in_full(lent, || self.arm.move_coordinate(link, axis, value))
    }

    fn move_frames(&mut self, lent: usize, link: u32, [first, second]: [script::Pose; 2]) -> Answer {
        let link = self.which(link);
        in_full(lent, || self.arm.move_frames(link, pose(first), pose(second)))
    }

    fn move_com(&mut self, lent: usize, link: u32, com: [f32; 2]) -> Answer {
        let link = self.which(link);
        in_full(lent, || self.arm.move_centre(link, point(com)))
    }

    fn work_out(&mut self, lent: usize) -> Answer {
        in_full(lent, || self.arm.full_working())
    }

    fn step(&mut self, lent: usize, dt: f32) -> Answer {
        in_full(lent, || self.arm.step(dt))
    }

    fn change_root(&mut self, lent: usize, to: RootType, at: script::Pose) -> Answer {
        in_full(lent, || match to {
            RootType::Free => self.arm.free_root(pose(at)),
            RootType::Fixed => self.arm.fix_root(pose(at)),
        })
    }

    fn take_part(&mut self, lent: usize, how: Split, link: u32, part: u32) -> Answer {
        let split = self.split_of(how, link);
        in_full(lent, || {
            self.arm = self.arm.part(split, part as usize)?;
            Ok(())
        })
    }

    fn spring(&self, link: u32, axis: u32) -> Answer<[f32; 2]> {
        let spring = self.arm.spring(self.which(link), axis).map_err(no)?;
        Ok([spring.stiffness, spring.rest])
    }

    fn branch(&self, link: u32, branch: &mut [u8]) -> Answer<usize> {
        let links = self.arm.kinematic_branch(self.which(link)).map_err(no)?;
        let places = branch.get_mut(..links.len()).ok_or(No::Unasked)?;
        for (place, &link) in places.iter_mut().zip(&links) {
            *place = byte(link)?;
        }
        Ok(links.len())
    }

    fn view(&self, role: script::Role, link: u32, lent: usize) -> Answer<Vec<f32>> {
        let row = |name| {
            self.arm
                .row(name)
                .get(..lent.min(self.arm.dof_count()))
                .ok_or(No::Unasked)
        };
        let (velocities, accelerations) = (row(RowName::Velocities)?, row(RowName::Accelerations)?);
        let role = match role {
            script::Role::Velocities => Role::Velocities,
            script::Role::Accelerations => Role::Accelerations,
        };
        let part = self.arm.row_view(role, self.which(link), velocities, accelerations);
        part.map(<[f32]>::to_vec).map_err(no)
    }

    fn jacobian_mul_coordinates(&self, link: u32, accelerations: &[f32]) -> Answer<[f32; AXES]> {
        let link = self.which(link);
        self.arm.jacobian_mul_coordinates(link, accelerations).map_err(no)
    }

    fn split(&self, how: Split, link: u32, map: &mut [u8]) -> Answer<usize> {
        let (parts, places) = self.arm.split_map(self.split_of(how, link)).map_err(no)?;
        let map = map.get_mut(..2 * places.len()).ok_or(No::Unasked)?;
        for (to, place) in map.chunks_exact_mut(2).zip(places) {
            to.copy_from_slice(&match place {
                Some(place) => [byte(place.part)?, byte(place.number)?],
                None => [255, 255],
            });
        }
        Ok(parts)
    }

    fn masks(&self, locked: u32, limit: u32, motor: u32) -> Answer<MaskCounts> {
        let constraints = masks::num_velocity_constraints(locked, limit, motor).map_err(no)?;
        let mut damping = [0; 4 * AXES];
        let dofs = masks::default_damping(locked, &mut damping).map_err(no)?;
        let counted = masks::dof_count(locked).map_err(no)?;
        let mut free = 0;
        for axis in 0..AXES as u32 {
            let below = masks::dof_count_below(locked, axis).map_err(no)?;
            if below != free {
                return Err(No::Wrong("another count of DoFs below an axis"));
            }
            free += usize::from(masks::is_free(locked, axis).map_err(no)?);
        }
        match counted == dofs && free == dofs {
            true => Ok(MaskCounts {
                dofs,
                constraints,
                damping: masks::floats(&damping[..4 * dofs]).collect(),
            }),
            false => Err(No::Wrong("another count of DoFs")),
        }
    }

    fn starts(&self, list: &[u32], starts: &mut [u8]) -> Answer<usize> {
        // A mask that is no byte is no mask either.
        let list: Vec<u8> = list.iter().map(|&mask| u8::try_from(mask).unwrap_or(u8::MAX)).collect();
        masks::starts(&list, starts).map_err(no)
    }

    fn rotation(&self, angle: f32) -> Answer<[f32; 2]> {
        let rotation = rotation::rotate(angle).map_err(no)?;
        Ok([rotation.re, rotation.im])
    }

    fn solve(&mut self, mass: &[f32], right: &[f32], result: &mut [f32]) -> Answer {
        solve::solve(right.len(), mass, right, result).map_err(no)
    }

    fn limit_row(
        &mut self,
        mass: &[f32],
        link: u32,
        axis: u32,
        limit: &Limit,
        [j, wj]: [&mut [f32]; 2],
    ) -> Answer<ConstraintRow> {
        let limits = limits(limit);
        let row = self.arm.limit_row(self.which(link), axis, limits, Lent { mass, j, wj });
        row.map(row_of).map_err(no)
    }

    fn friction_row(
        &mut self,
        mass: &[f32],
        link: u32,
        axis: u32,
        dt: f32,
        cfm_coeff: f32,
        [j, wj]: [&mut [f32]; 2],
    ) -> Answer<ConstraintRow> {
        let row = self
            .arm
            .friction_row(self.which(link), axis, dt, cfm_coeff, Lent { mass, j, wj });
        row.map(row_of).map_err(no)
    }

    fn fill_jacobians(
        &mut self,
        lent: usize,
        mass: &[f32],
        link: u32,
        [x, y, torque]: [f32; 3],
        [j, wj]: [&mut [f32]; 2],
    ) -> Answer<[f32; 2]> {
        let force = Force { x, y, torque };
        let mut sums = [0.0; 2];
        in_full(lent, || {
            let told = self.arm.fill_jacobians(self.which(link), force, Lent { mass, j, wj })?;
            sums = [told.j_wj, told.j_velocities];
            Ok(())
        })?;
        Ok(sums)
    }

    fn counts(&self) -> [usize; 2] {
        [self.arm.links().len(), self.arm.couplings().len()]
    }

    fn link(&self, number: usize) -> LinkState {
        let link = self.view_of(number).expect("a link of the arm");
        let joint = link.joint();
        LinkState {
            tag: link.tag().into(),
            parent: link.parent(),
            locked: joint.locked,
            limit: joint.limit,
            motor: joint.motor,
            frame1: floats_of(joint.frame1),
            frame2: floats_of(joint.frame2),
            com: [link.centre().x, link.centre().y],
            coords: joint.coordinates,
            rot: [joint.rotation.re, joint.rotation.im],
            stiffness: joint.stiffness,
            rest: joint.rest,
        }
    }

    fn coupling(&self, number: usize) -> Coupling {
        let coupling = self.arm.couplings()[number];
        Coupling {
            link1: coupling.link1.into(),
            axis1: coupling.axis1.into(),
            link2: coupling.link2.into(),
            axis2: coupling.axis2.into(),
            coeff: coupling.coefficient,
            offset: coupling.offset,
        }
    }

    fn row(&self, row: script::RowName) -> Cow<'_, [f32]> {
        Cow::Borrowed(self.arm.row(row_name(row)))
    }

    fn kept(&self, link: usize) -> Kept {
        let link = self.view_of(link).expect("a link of the arm");
        Kept {
            pose: floats_of(link.pose()),
            shift02: [link.shift02().x, link.shift02().y],
            shift23: [link.shift23().x, link.shift23().y],
        }
    }

    fn tables(&self) -> Option<&[f32]> {
        Some(self.arm.tables())
    }

    fn poke(&mut self, _: Poke) -> Answer {
        Err(No::Unasked)
    }

    fn start(&self, link: usize) -> usize {
        match link < self.links() {
            true => self.arm.link_start(link as u32).unwrap_or(usize::MAX),
            false => self.arm.dof_count(),
        }
    }
}
