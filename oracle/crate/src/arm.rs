//! The crate's multibody behind document 01's calls, in plain numbers.
//!
//! Where 01 joins what the crate keeps apart, the calls are made one after the other: an addition, a one-link move, a
//! whole step, a root change and a part each end in `forward_kinematics`. The crate refuses nothing, so neither does
//! this: what it can't bear panics.
use crate::dynamics::integration_parameters::SpringCoefficients;
use crate::dynamics::solver::GenericJointConstraint;
use crate::dynamics::*;
use crate::math::{DVector, Pose, Real, Rotation, Vector, rotation_from_angle};

/// A tag, a parent's number, masks and what the joint's frames and the centre of mass are.
#[derive(Clone, Copy, Debug)]
pub struct Link {
    pub tag: u32,
    pub parent: usize,
    /// Locked, limit and motor.
    pub masks: [u8; 3],
    /// re, im, x, y.
    pub frames: [[Real; 4]; 2],
    pub centre: [Real; 2],
}

/// A link as the arm keeps it.
#[derive(Clone, Copy, Debug)]
pub struct LinkState {
    pub link: Link,
    pub start: usize,
    pub coordinates: [Real; 3],
    pub rotation: [Real; 2],
    pub stiffness: [Real; 3],
    pub rest: [Real; 3],
}

#[derive(Clone, Copy, Debug)]
pub struct Coupling {
    pub links: [usize; 2],
    pub axes: [usize; 2],
    pub coefficient: Real,
    pub offset: Real,
}

#[derive(Clone, Copy, Debug, PartialEq, Eq)]
pub enum Row {
    Velocities,
    Damping,
    Armature,
    Frictions,
    Accelerations,
}

#[derive(Clone, Copy, Debug)]
pub struct Softness {
    pub dt: Real,
    pub erp_inv_dt: Real,
    pub cfm_coeff: Real,
}
impl Softness {
    pub(crate) fn parameters(&self) -> (IntegrationParameters, SpringCoefficients<Real>) {
        let Self {
            dt,
            erp_inv_dt,
            cfm_coeff,
        } = *self;
        (
            IntegrationParameters { dt },
            SpringCoefficients::Given { erp_inv_dt, cfm_coeff },
        )
    }
}

/// What a limit, friction or coupling row came to.
#[derive(Clone, Debug)]
pub struct RowConstraint {
    pub bounds: [Real; 2],
    pub rhs: Real,
    pub cfm_gain: Real,
    pub inv_lhs: Real,
    pub j: Vec<Real>,
    pub wj: Vec<Real>,
}
impl RowConstraint {
    pub(crate) fn read(constraint: &GenericJointConstraint, jacobians: &DVector) -> Self {
        let (at, n) = (constraint.j_id2, constraint.ndofs2);
        Self {
            bounds: constraint.impulse_bounds,
            rhs: constraint.rhs,
            cfm_gain: constraint.cfm_gain,
            inv_lhs: constraint.inv_lhs,
            j: jacobians.as_slice()[at..at + n].to_vec(),
            wj: jacobians.as_slice()[at + n..at + 2 * n].to_vec(),
        }
    }
}

#[derive(Clone, Debug)]
pub struct FilledJacobian {
    pub j: Vec<Real>,
    pub wj: Vec<Real>,
    pub sums: [Real; 2],
    /// The sums of the terms' absolute values, which 01's tolerance is taken of.
    pub sizes: [Real; 2],
}

#[derive(Clone, Default)]
pub struct Arm {
    pub(crate) multibody: Multibody,
    pub(crate) bodies: RigidBodySet,
    mass: Vec<Real>,
    /// The dimension of the factors that the multibody holds of `mass`.
    factored: Option<usize>,
    /// Whether the root is given 01's shifts after the crate's kinematics.
    root_shifts_by_01: bool,
}

impl Arm {
    pub fn new(root_shifts_by_01: bool) -> Self {
        Self {
            root_shifts_by_01,
            ..Self::default()
        }
    }

    pub fn links(&self) -> usize {
        self.multibody.num_links()
    }

    pub fn dofs(&self) -> usize {
        self.multibody.ndofs()
    }

    /// `forward_kinematics`; with no link there is none.
    pub fn full_working(&mut self) {
        self.kinematics(false);
    }

    fn kinematics(&mut self, take_body_pose: bool) {
        if self.links() > 0 {
            self.multibody.forward_kinematics(&self.bodies, take_body_pose);
            if self.root_shifts_by_01 {
                let [shift02, shift23] = self.root_shifts_of_01();
                self.multibody.oracle_put_root_shifts(shift02, shift23);
            }
        }
    }

    /// The root's shifts as 01 defines them.
    fn root_shifts_of_01(&self) -> [Vector; 2] {
        let root = self.multibody.root();
        let pose = *root.local_to_world();
        let c2 = pose * root.joint.data.local_frame2.translation;
        let c3 = pose * self.bodies[root.rigid_body].mprops.local_mprops.local_com;
        [Vector::ZERO, c3 - c2]
    }

    /// Whether the root's shift02 and shift23 in the crate are other than 01's: it never writes them.
    pub fn root_shifts_part(&self) -> [bool; 2] {
        if self.links() == 0 {
            return [false; 2];
        }
        let [shift02, shift23] = self.root_shifts_of_01();
        let root = self.multibody.root();
        [root.shift02 != shift02, root.shift23 != shift23]
    }

    pub fn root_is_free(&self) -> bool {
        self.links() > 0 && self.multibody.root_is_dynamic
    }

    /// By `add_link` and, every second time, by `append`: the crate has both.
    pub fn add_link(&mut self, link: &Link) {
        let root = self.links() == 0;
        let free = link.masks[0] == 0;
        let body_type = if root && !free {
            RigidBodyType::Fixed
        } else {
            RigidBodyType::Dynamic
        };
        let body = self
            .bodies
            .insert(link.tag, RigidBody::new(body_type, vector(link.centre)));
        if root {
            self.multibody.root_is_dynamic = free;
        }
        if self.links().is_multiple_of(2) {
            let parent = (!root).then_some(link.parent);
            self.multibody.add_link(parent, joint(link), body);
        } else {
            self.multibody
                .append(Multibody::with_root(body, true), link.parent, joint(link));
        }
        self.full_working();
    }

    fn dof(&self, link: usize, axis: usize) -> usize {
        self.multibody.links[link].assembly_id + self.dofs_below(link, axis)
    }

    /// The DoFs of a link below an axis, as the crate's callers count them.
    pub(crate) fn dofs_below(&self, link: usize, axis: usize) -> usize {
        let locked = self.multibody.links[link].joint.data.locked_axes.bits();
        (0..axis).filter(|lower| locked >> lower & 1 == 0).count()
    }

    fn row_of(&mut self, row: Row) -> &mut DVector {
        match row {
            Row::Velocities => &mut self.multibody.velocities,
            Row::Damping => self.multibody.damping_mut(),
            Row::Armature => self.multibody.armature_mut(),
            Row::Frictions => self.multibody.frictions_mut(),
            Row::Accelerations => &mut self.multibody.accelerations,
        }
    }

    pub fn set_row(&mut self, row: Row, link: usize, axis: usize, value: Real) {
        let dof = self.dof(link, axis);
        self.row_of(row)[dof] = value;
    }

    pub fn row(&self, row: Row) -> &[Real] {
        match row {
            Row::Velocities => self.multibody.velocities.as_slice(),
            Row::Damping => self.multibody.damping().as_slice(),
            Row::Armature => self.multibody.armature().as_slice(),
            Row::Frictions => self.multibody.frictions().as_slice(),
            Row::Accelerations => self.multibody.accelerations.as_slice(),
        }
    }

    /// A link's own part of the velocities or the accelerations.
    pub fn view(&self, accelerations: bool, link: usize) -> Vec<Real> {
        let link = &self.multibody.links[link];
        if accelerations {
            let all = self.multibody.generalized_acceleration();
            all.rows(link.assembly_id, link.joint.ndofs()).iter().copied().collect()
        } else {
            self.multibody.joint_velocity(link).iter().copied().collect()
        }
    }

    pub fn move_coordinate(&mut self, link: usize, axis: usize, value: Real) {
        let joint = &mut self.multibody.links[link].joint;
        joint.coords[axis] = value;
        if axis == 2 {
            joint.joint_rot = rotation_from_angle(value);
        }
        self.full_working();
    }

    pub fn move_frames(&mut self, link: usize, frames: [[Real; 4]; 2]) {
        let data = &mut self.multibody.links[link].joint.data;
        data.local_frame1 = pose(frames[0]);
        data.local_frame2 = pose(frames[1]);
        self.full_working();
    }

    pub fn move_centre(&mut self, link: usize, centre: [Real; 2]) {
        let body = self.multibody.links[link].rigid_body;
        self.bodies.index_mut_internal(body).mprops.local_mprops.local_com = vector(centre);
        self.full_working();
    }

    pub fn set_spring(&mut self, link: usize, axis: usize, stiffness: Real, rest: Real) {
        self.multibody.links[link].joint.set_spring(axis, stiffness, rest);
    }

    pub fn spring(&self, link: usize, axis: usize) -> (Real, Real) {
        self.multibody.links[link].joint.spring(axis)
    }

    pub fn add_coupling(&mut self, coupling: &Coupling) {
        let Coupling {
            links: [link1, link2],
            axes: [axis1, axis2],
            coefficient: coeff,
            offset,
        } = *coupling;
        let (dof1, dof2) = (self.dofs_below(link1, axis1), self.dofs_below(link2, axis2));
        self.multibody.add_dof_coupling(MultibodyDofCoupling {
            link1,
            dof1,
            axis1,
            link2,
            dof2,
            axis2,
            coeff,
            offset,
        });
    }

    pub fn couplings(&self) -> Vec<Coupling> {
        let read = |c: &MultibodyDofCoupling| Coupling {
            links: [c.link1, c.link2],
            axes: [c.axis1, c.axis2],
            coefficient: c.coeff,
            offset: c.offset,
        };
        self.multibody.couplings().iter().map(read).collect()
    }

    pub fn step(&mut self, dt: Real) {
        self.multibody.integrate(dt);
        self.full_working();
    }

    pub fn change_root(&mut self, free: bool, to: [Real; 4]) {
        let body = self.bodies.index_mut_internal(self.multibody.root().rigid_body);
        body.body_type = if free {
            RigidBodyType::Dynamic
        } else {
            RigidBodyType::Fixed
        };
        body.pos.position = pose(to);
        self.kinematics(true);
    }

    pub fn branch(&self, link: usize) -> Vec<usize> {
        self.multibody.kinematic_branch(link)
    }

    pub fn jacobian_mul_coordinates(&self, link: usize, values: &[Real]) -> [Real; 3] {
        let velocity = self.multibody.links[link].joint.jacobian_mul_coordinates(values);
        [velocity.linvel.x, velocity.linvel.y, velocity.angvel]
    }

    fn removal(&self, link: usize, joint_only: bool) -> Vec<Multibody> {
        self.multibody.clone().remove_link(link, joint_only)
    }

    /// The part count and, for each old link, its part and its new number, if it survives.
    pub fn split(&self, link: usize, joint_only: bool) -> (usize, Vec<Option<(usize, usize)>>) {
        let parts = self.removal(link, joint_only);
        let place = |old: &MultibodyLink| {
            let within = |part: &Multibody| part.links().position(|new| new.rigid_body == old.rigid_body);
            parts
                .iter()
                .enumerate()
                .find_map(|(number, part)| Some((number, within(part)?)))
        };
        (parts.len(), self.multibody.links().map(place).collect())
    }

    /// A part takes the arm's place. Its head's body is made fixed, for otherwise the crate would free the root at the
    /// next kinematics.
    pub fn take_part(&mut self, link: usize, joint_only: bool, part: usize) {
        self.multibody = self.removal(link, joint_only).swap_remove(part);
        self.forget_factors();
        let head = self.multibody.root();
        let (body, kept) = (head.rigid_body, *head.local_to_world());
        let body = self.bodies.index_mut_internal(body);
        body.body_type = RigidBodyType::Fixed;
        body.pos.position = kept;
        self.full_working();
    }

    pub fn set_mass(&mut self, mass: Vec<Real>) {
        self.mass = mass;
        self.forget_factors();
    }

    /// The mass matrix that the next solves take; its factors stay where it is the one from before.
    pub fn lend_mass(&mut self, mass: &[Real]) {
        if self.mass != mass {
            self.set_mass(mass.to_vec());
        }
    }

    /// Has the crate factor a matrix over the DoFs that aren't driven: all of them, but for T-14.
    pub(crate) fn factor_undriven(&mut self) {
        let joints = self.multibody.links().map(|link| link.joint());
        let dofs = joints.filter(|joint| !joint.kinematic).map(|joint| joint.ndofs()).sum();
        self.factor(dofs);
    }

    /// Has the crate factor the first n·n floats that are lent, in rows of n.
    fn factor(&mut self, n: usize) {
        if self.factored != Some(n) {
            self.multibody
                .oracle_set_mass(na::DMatrix::from_row_slice(n, n, &self.mass[..n * n]));
            self.factored = Some(n);
        }
    }

    pub(crate) fn forget_factors(&mut self) {
        self.factored = None;
    }

    pub fn solve(&mut self, right_sides: &[Real]) -> Vec<Real> {
        self.factor(right_sides.len());
        let mut solution = DVector::from_row_slice(right_sides);
        self.multibody.inv_augmented_mass().solve_mut(&mut solution);
        solution.as_slice().to_vec()
    }

    pub fn limit(
        &mut self,
        link: usize,
        axis: usize,
        position: Real,
        limits: [Real; 2],
        softness: Softness,
    ) -> RowConstraint {
        let (parameters, softness) = softness.parameters();
        self.row_constraint(|arm, jacobians, out| {
            let (mut at, mut count) = (0, 0);
            let (link, dof) = (&arm.multibody.links[link], arm.dofs_below(link, axis));
            unit_joint_limit_constraint(
                &parameters,
                &arm.multibody,
                link,
                limits,
                position,
                dof,
                &mut at,
                jacobians,
                out,
                &mut count,
                softness,
            );
        })
    }

    pub fn friction(&mut self, link: usize, axis: usize, softness: Softness) -> RowConstraint {
        let (parameters, softness) = softness.parameters();
        let friction = self.multibody.frictions()[self.dof(link, axis)];
        self.row_constraint(|arm, jacobians, out| {
            let (mut at, mut count) = (0, 0);
            let (link, dof) = (&arm.multibody.links[link], arm.dofs_below(link, axis));
            unit_joint_friction_constraint(
                &parameters,
                &arm.multibody,
                link,
                friction,
                dof,
                &mut at,
                jacobians,
                out,
                &mut count,
                softness,
            );
        })
    }

    fn row_constraint(&mut self, write: impl Fn(&Self, &mut DVector, &mut [GenericJointConstraint])) -> RowConstraint {
        self.factor_undriven();
        let mut jacobians = DVector::zeros(2 * self.dofs());
        let mut out = [GenericJointConstraint::blank()];
        write(self, &mut jacobians, &mut out);
        RowConstraint::read(&out[0], &jacobians)
    }

    pub fn fill_jacobians(&mut self, link: usize, force: [Real; 2], torque: Real) -> FilledJacobian {
        let n = self.dofs();
        self.factor_undriven();
        let mut out = DVector::zeros(2 * n);
        let (jwj, jv) = self
            .multibody
            .fill_jacobians(link, vector(force), torque, &mut 0, &mut out);
        let (j, wj) = out.as_slice().split_at(n);
        let size = |other: &[Real]| j.iter().zip(other).map(|(x, y)| (x * y).abs()).sum();
        FilledJacobian {
            j: j.to_vec(),
            wj: wj.to_vec(),
            sums: [jwj, jv],
            sizes: [size(wj), size(self.row(Row::Velocities))],
        }
    }

    pub fn link(&self, number: usize) -> LinkState {
        let link = &self.multibody.links[number];
        let (joint, data) = (&link.joint, &link.joint.data);
        let centre = self.bodies[link.rigid_body].mprops.local_mprops.local_com;
        LinkState {
            link: Link {
                tag: link.rigid_body.into_raw_parts().0,
                parent: link.parent_internal_id,
                masks: [data.locked_axes.bits(), data.limit_axes.bits(), data.motor_axes.bits()],
                frames: [floats(&data.local_frame1), floats(&data.local_frame2)],
                centre: [centre.x, centre.y],
            },
            start: link.assembly_id,
            coordinates: [0, 1, 2].map(|axis| joint.coords()[axis]),
            rotation: [joint.joint_rot().re, joint.joint_rot().im],
            stiffness: [0, 1, 2].map(|axis| joint.spring(axis).0),
            rest: [0, 1, 2].map(|axis| joint.spring(axis).1),
        }
    }

    pub fn kept_pose(&self, link: usize) -> [Real; 4] {
        floats(self.multibody.links[link].local_to_world())
    }

    pub fn kept_shifts(&self, link: usize) -> [Real; 4] {
        let link = &self.multibody.links[link];
        [link.shift02.x, link.shift02.y, link.shift23.x, link.shift23.y]
    }

    pub fn jacobian_row(&self, link: usize, row: usize) -> Vec<Real> {
        let jacobian = self.multibody.body_jacobian(link);
        (0..jacobian.ncols()).map(|column| jacobian[(row, column)]).collect()
    }

    pub fn poke_coordinate(&mut self, link: usize, axis: usize, value: Real) {
        self.multibody.links[link].joint.coords[axis] = value;
    }

    pub fn poke_rotation(&mut self, link: usize, rotation: [Real; 2]) {
        self.multibody.links[link].joint.joint_rot = Rotation {
            re: rotation[0],
            im: rotation[1],
        };
    }

    pub fn poke_pose(&mut self, link: usize, kept: [Real; 4]) {
        self.multibody.links[link].local_to_world = pose(kept);
    }
}

/// DoF count, constraint count and default damping of a joint with these masks: locked, limit, motor.
pub fn masks(masks: [u8; 3]) -> (usize, usize, Vec<Real>) {
    let joint = joint_with_masks(masks);
    let mut damping = DVector::zeros(joint.ndofs());
    joint.default_damping(&mut damping.rows_mut(0, joint.ndofs()));
    (
        joint.ndofs(),
        joint.num_velocity_constraints(),
        damping.as_slice().to_vec(),
    )
}

/// Each start and the DoF count of an arm whose joints have these locked masks.
pub fn starts(locked: &[u8]) -> (Vec<usize>, usize) {
    let mut multibody = Multibody::new();
    for (number, mask) in locked.iter().enumerate() {
        let body = RigidBodyHandle::from_raw_parts(number as u32, 0);
        multibody.add_link((number > 0).then_some(0), joint_with_masks([*mask, 0, 0]), body);
    }
    (
        multibody.links().map(|link| link.assembly_id()).collect(),
        multibody.ndofs(),
    )
}

pub fn rotation(angle: Real) -> [Real; 2] {
    let rotation = rotation_from_angle(angle);
    [rotation.re, rotation.im]
}

fn joint_with_masks(masks: [u8; 3]) -> MultibodyJoint {
    let [locked, limit, motor] = masks.map(|mask| JointAxesMask::from_bits(mask).expect("a mask above 7"));
    let mut data = GenericJoint::new(locked);
    data.limit_axes = limit;
    data.motor_axes = motor;
    MultibodyJoint::new(data, false)
}

pub(crate) fn joint(link: &Link) -> MultibodyJoint {
    let mut joint = joint_with_masks(link.masks);
    joint.data.local_frame1 = pose(link.frames[0]);
    joint.data.local_frame2 = pose(link.frames[1]);
    joint
}

pub(crate) fn vector([x, y]: [Real; 2]) -> Vector {
    Vector::new(x, y)
}

fn pose([re, im, x, y]: [Real; 4]) -> Pose {
    Pose {
        rotation: Rotation { re, im },
        translation: Vector::new(x, y),
    }
}

fn floats(pose: &Pose) -> [Real; 4] {
    [
        pose.rotation.re,
        pose.rotation.im,
        pose.translation.x,
        pose.translation.y,
    ]
}
