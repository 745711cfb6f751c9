//! The crate's own text as what answers a script. It refuses nothing.

use super::conditioning::Conditioning;
use super::facts::{Facts, Sizes};
use rapier::{Arm, Link, Row, RowConstraint, Softness};
use script::limits::AXES;
use script::{
    Answer, ConstraintRow, Coupling, Kept, Limit, LinkState, MaskCounts, NewCoupling, NewLink, No, Poke, Pose, Role,
    RootType, RowName, Split,
};
use std::borrow::Cow;

/// As far as links of an arm inside 01's domain can stand: sixteen, with four lengths each way.
const REACHED: f64 = 128.0;
/// A part that doesn't survive a split.
const GONE: (usize, usize) = (255, 255);

#[derive(Clone)]
pub struct Engine {
    pub arm: Arm,
    root_shifts_by_01: bool,
    sizes: Sizes,
}

impl Engine {
    /// With the crate's own shifts of a root, or with those that 01 gives it.
    pub fn new(root_shifts_by_01: bool) -> Engine {
        Engine {
            arm: Arm::new(root_shifts_by_01),
            root_shifts_by_01,
            sizes: Sizes::default(),
        }
    }

    pub fn facts(&self) -> Facts {
        let links = 0..self.arm.links();
        let is_turning = |link| {
            let locked = self.arm.link(link).link.masks[0];
            (0..AXES)
                .filter(move |axis| locked >> axis & 1 == 0)
                .map(|axis| axis == 2)
        };
        Facts {
            root_shifts_part: self.arm.root_shifts_part(),
            root_is_free: self.arm.root_is_free(),
            unit: self.unit(),
            turns: links.flat_map(is_turning).collect(),
            sizes: self.sizes,
        }
    }

    /// 1 for lengths inside the domain, and for those that a cut makes of them; else the largest.
    fn unit(&self) -> f64 {
        let largest = |link| {
            let state = self.arm.link(link);
            let [[_, _, x1, y1], [_, _, x2, y2]] = state.link.frames;
            let ([cx, cy], [x, y, _]) = (state.link.centre, state.coordinates);
            let lengths = [x1, y1, x2, y2, cx, cy, x, y].map(|x| f64::from(x.abs()));
            lengths.into_iter().fold(1.0, f64::max)
        };
        let unit = (0..self.arm.links()).map(largest).fold(1.0, f64::max);
        if unit <= REACHED { 1.0 } else { unit }
    }

    /// The sizes of a row's values, given its right side inside the domain.
    fn row_sizes(&self, mass: &[f32], row: &RowConstraint, cfm_coeff: f32) -> Sizes {
        let conditioning = Conditioning::of(mass, &row.wj, true);
        let gain = |c: Conditioning| c.solution * f64::from(cfm_coeff.abs()).max(1.0);
        Sizes {
            solution: conditioning.map(|c| c.solution),
            gain: conditioning.map(gain),
            inv_lhs: conditioning.and_then(|c| c.reciprocal(row.inv_lhs, cfm_coeff)),
            ..Sizes::default()
        }
    }
}

fn mask(bits: u32) -> u8 {
    u8::try_from(bits).expect("a mask above 255")
}

/// Whether only the joint goes.
pub fn cuts(how: Split) -> bool {
    how == Split::Cut
}

pub fn link_of(new: &NewLink) -> Link {
    Link {
        tag: new.tag,
        parent: new.parent as usize,
        masks: [new.locked, new.limit, new.motor].map(mask),
        frames: [new.frame1, new.frame2],
        centre: new.com,
    }
}

/// What the script says of a row beside its vectors.
pub fn told(row: &RowConstraint) -> ConstraintRow {
    ConstraintRow {
        bounds: row.bounds,
        rhs: row.rhs,
        cfm_gain: row.cfm_gain,
        inv_lhs: row.inv_lhs,
    }
}

fn row_of(row: RowName) -> Row {
    match row {
        RowName::Velocities => Row::Velocities,
        RowName::Damping => Row::Damping,
        RowName::Armature => Row::Armature,
        RowName::Frictions => Row::Frictions,
        RowName::Accelerations => Row::Accelerations,
    }
}

/// Writes what is answered into lent memory. What is lent decides refusals alone, and the crate has none.
fn put<T: Copy>(out: &mut [T], values: &[T]) -> Answer {
    let places = out.get_mut(..values.len()).ok_or(No::Unasked)?;
    places.copy_from_slice(values);
    Ok(())
}

fn put_row(row: &RowConstraint, [j, wj]: [&mut [f32]; 2]) -> Answer<ConstraintRow> {
    put(j, &row.j)?;
    put(wj, &row.wj)?;
    Ok(told(row))
}

impl script::Engine for Engine {
    fn renew(&mut self) {
        *self = Engine::new(self.root_shifts_by_01);
    }

    fn make_empty(&mut self, _: usize) -> Answer {
        self.renew();
        Ok(())
    }

    fn add_link(&mut self, _: usize, new: &NewLink) -> Answer {
        self.arm.add_link(&link_of(new));
        Ok(())
    }

    fn add_coupling(&mut self, new: &NewCoupling) -> Answer {
        self.arm.add_coupling(&rapier::Coupling {
            links: new.links.map(|link| link as usize),
            axes: new.axes.map(|axis| axis as usize),
            coefficient: new.coeff,
            offset: new.offset,
        });
        Ok(())
    }

    fn write_row(&mut self, row: RowName, link: u32, axis: u32, value: f32) -> Answer {
        self.arm.set_row(row_of(row), link as usize, axis as usize, value);
        Ok(())
    }

    fn set_spring(&mut self, link: u32, axis: u32, stiffness: f32, rest: f32) -> Answer {
        self.arm.set_spring(link as usize, axis as usize, stiffness, rest);
        Ok(())
    }

    fn move_coordinate(&mut self, _: usize, link: u32, axis: u32, value: f32) -> Answer {
        self.arm.move_coordinate(link as usize, axis as usize, value);
        Ok(())
    }

    fn move_frames(&mut self, _: usize, link: u32, frames: [Pose; 2]) -> Answer {
        self.arm.move_frames(link as usize, frames);
        Ok(())
    }

    fn move_com(&mut self, _: usize, link: u32, com: [f32; 2]) -> Answer {
        self.arm.move_centre(link as usize, com);
        Ok(())
    }

    fn work_out(&mut self, _: usize) -> Answer {
        self.arm.full_working();
        Ok(())
    }

    fn step(&mut self, _: usize, dt: f32) -> Answer {
        self.arm.step(dt);
        Ok(())
    }

    fn change_root(&mut self, _: usize, to: RootType, pose: Pose) -> Answer {
        self.arm.change_root(to == RootType::Free, pose);
        Ok(())
    }

    fn take_part(&mut self, _: usize, how: Split, link: u32, part: u32) -> Answer {
        self.arm.take_part(link as usize, cuts(how), part as usize);
        Ok(())
    }

    fn spring(&self, link: u32, axis: u32) -> Answer<[f32; 2]> {
        Ok(self.arm.spring(link as usize, axis as usize).into())
    }

    fn branch(&self, link: u32, branch: &mut [u8]) -> Answer<usize> {
        let links: Vec<u8> = self.arm.branch(link as usize).iter().map(|&link| link as u8).collect();
        put(branch, &links)?;
        Ok(links.len())
    }

    fn view(&self, role: Role, link: u32, _: usize) -> Answer<Vec<f32>> {
        Ok(self.arm.view(role == Role::Accelerations, link as usize))
    }

    fn jacobian_mul_coordinates(&self, link: u32, accelerations: &[f32]) -> Answer<[f32; AXES]> {
        Ok(self.arm.jacobian_mul_coordinates(link as usize, accelerations))
    }

    fn split(&self, how: Split, link: u32, map: &mut [u8]) -> Answer<usize> {
        let (parts, places) = self.arm.split(link as usize, cuts(how));
        let bytes = |place: Option<(usize, usize)>| {
            let (part, number) = place.unwrap_or(GONE);
            [part as u8, number as u8]
        };
        put(map, &places.into_iter().flat_map(bytes).collect::<Vec<u8>>())?;
        Ok(parts)
    }

    fn masks(&self, locked: u32, limit: u32, motor: u32) -> Answer<MaskCounts> {
        let (dofs, constraints, damping) = rapier::masks([locked, limit, motor].map(mask));
        Ok(MaskCounts {
            dofs,
            constraints,
            damping,
        })
    }

    fn starts(&self, masks: &[u32], starts: &mut [u8]) -> Answer<usize> {
        let locked: Vec<u8> = masks.iter().map(|&bits| mask(bits)).collect();
        let (all, total) = rapier::starts(&locked);
        put(starts, &all.iter().map(|&start| start as u8).collect::<Vec<u8>>())?;
        Ok(total)
    }

    fn rotation(&self, angle: f32) -> Answer<[f32; 2]> {
        Ok(rapier::rotation(angle))
    }

    fn solve(&mut self, mass: &[f32], right: &[f32], result: &mut [f32]) -> Answer {
        self.arm.lend_mass(mass);
        let solution = self.arm.solve(right);
        let given_inside = right.iter().all(|x| x.abs() <= 1.0);
        self.sizes = Sizes {
            solution: Conditioning::of(mass, &solution, given_inside).map(|c| c.solution),
            ..Sizes::default()
        };
        put(result, &solution)
    }

    fn limit_row(
        &mut self,
        mass: &[f32],
        link: u32,
        axis: u32,
        limit: &Limit,
        vectors: [&mut [f32]; 2],
    ) -> Answer<ConstraintRow> {
        self.arm.lend_mass(mass);
        let softness = Softness {
            dt: limit.dt,
            erp_inv_dt: limit.erp_inv_dt,
            cfm_coeff: limit.cfm_coeff,
        };
        let limits = [limit.min, limit.max];
        let row = self
            .arm
            .limit(link as usize, axis as usize, limit.pos, limits, softness);
        self.sizes = self.row_sizes(mass, &row, limit.cfm_coeff);
        put_row(&row, vectors)
    }

    fn friction_row(
        &mut self,
        mass: &[f32],
        link: u32,
        axis: u32,
        dt: f32,
        cfm_coeff: f32,
        vectors: [&mut [f32]; 2],
    ) -> Answer<ConstraintRow> {
        self.arm.lend_mass(mass);
        let softness = Softness {
            dt,
            erp_inv_dt: 0.0,
            cfm_coeff,
        };
        let row = self.arm.friction(link as usize, axis as usize, softness);
        self.sizes = self.row_sizes(mass, &row, cfm_coeff);
        put_row(&row, vectors)
    }

    fn fill_jacobians(
        &mut self,
        _: usize,
        mass: &[f32],
        link: u32,
        [x, y, torque]: [f32; 3],
        [j, wj]: [&mut [f32]; 2],
    ) -> Answer<[f32; 2]> {
        self.arm.lend_mass(mass);
        let filled = self.arm.fill_jacobians(link as usize, [x, y], torque);
        let force = [x, y, torque]
            .map(|x| f64::from(x.abs()))
            .into_iter()
            .fold(1.0, f64::max);
        self.sizes = filled_sizes(mass, &filled, self.arm.row(Row::Velocities), self.unit() * force);
        put(j, &filled.j)?;
        put(wj, &filled.wj)?;
        Ok(filled.sums)
    }

    fn counts(&self) -> [usize; 2] {
        [self.arm.links(), self.arm.couplings().len()]
    }

    fn link(&self, number: usize) -> LinkState {
        let state = self.arm.link(number);
        let [locked, limit, motor] = state.link.masks;
        LinkState {
            tag: state.link.tag,
            parent: state.link.parent as u32,
            locked,
            limit,
            motor,
            frame1: state.link.frames[0],
            frame2: state.link.frames[1],
            com: state.link.centre,
            coords: state.coordinates,
            rot: state.rotation,
            stiffness: state.stiffness,
            rest: state.rest,
        }
    }

    fn coupling(&self, number: usize) -> Coupling {
        let coupling = self.arm.couplings()[number];
        let ([link1, link2], [axis1, axis2]) = (coupling.links, coupling.axes);
        Coupling {
            link1: link1 as u32,
            axis1: axis1 as u32,
            link2: link2 as u32,
            axis2: axis2 as u32,
            coeff: coupling.coefficient,
            offset: coupling.offset,
        }
    }

    fn row(&self, row: RowName) -> Cow<'_, [f32]> {
        Cow::Borrowed(self.arm.row(row_of(row)))
    }

    fn kept(&self, link: usize) -> Kept {
        let [x02, y02, x23, y23] = self.arm.kept_shifts(link);
        Kept {
            pose: self.arm.kept_pose(link),
            shift02: [x02, y02],
            shift23: [x23, y23],
        }
    }

    fn jacobian(&self, link: usize, row: usize) -> Cow<'_, [f32]> {
        Cow::Owned(self.arm.jacobian_row(link, row))
    }

    /// The crate keeps no lent tables.
    fn tables(&self) -> Option<&[f32]> {
        None
    }

    fn poke(&mut self, poke: Poke) -> Answer {
        match poke {
            Poke::Coordinate(link, axis, to) => self.arm.poke_coordinate(link, axis, to),
            Poke::Rotation(link, to) => self.arm.poke_rotation(link, to),
            Poke::Pose(link, to) => self.arm.poke_pose(link, to),
            _ => return Err(No::Unasked),
        }
        Ok(())
    }

    /// As the crate has it, not as the masks say.
    fn start(&self, link: usize) -> usize {
        match link < self.arm.links() {
            true => self.arm.link(link).start,
            false => self.arm.dofs(),
        }
    }
}

/// Inside the domain a sum's size is that of its terms; outside, what the terms may stray by counts too. `unit` is that of j.
fn filled_sizes(mass: &[f32], filled: &rapier::FilledJacobian, velocities: &[f32], unit: f64) -> Sizes {
    let largest = |values: &[f32]| values.iter().map(|x| f64::from(x.abs())).fold(0.0, f64::max);
    let conditioning = Conditioning::of(mass, &filled.wj, unit <= 1.0);
    let solution = conditioning.map(|c| match unit <= 1.0 {
        true => c.solution,
        false => c.solution.max(c.inverse * unit),
    });
    let [jwj, jv] = filled.sizes.map(f64::from);
    let sums = solution.map(|solution| match unit <= 1.0 && solution <= 1.0 {
        true => [jwj, jv],
        false => [
            jwj.max(unit * largest(&filled.wj)).max(largest(&filled.j) * solution),
            jv.max(unit * largest(velocities)),
        ],
    });
    Sizes {
        solution,
        filled: unit,
        sums,
        ..Sizes::default()
    }
}
