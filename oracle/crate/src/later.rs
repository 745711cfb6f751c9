//! What the known differences show beside the script: the change requests' calls (T-02, T-07, T-11, T-14), and the
//! crate's own steps one by one.
use crate::arm::{Arm, Link, RowConstraint, joint, vector};
use crate::dynamics::solver::GenericJointConstraint;
use crate::dynamics::*;
use crate::math::{DVector, Jacobian, Real};

/// What a host gives of one body: mass and inertia, force and torque, velocities of the body and of its joint.
pub struct Body {
    pub mass: Real,
    pub inertia: Real,
    pub force: [Real; 3],
    pub velocity: [Real; 3],
    pub joint_velocity: [Real; 3],
}

impl Arm {
    pub fn set_driven(&mut self, link: usize, driven: bool) {
        self.multibody.links[link].joint.kinematic = driven;
        self.forget_factors();
    }

    pub fn coupling_rows(&mut self, link: usize, erp_inv_dt: Real) -> Vec<RowConstraint> {
        self.factor_undriven();
        let count = self.multibody.num_couplings_owned_by(link);
        let mut jacobians = DVector::zeros(2 * self.dofs() * count);
        let mut out = vec![GenericJointConstraint::blank(); count];
        let parameters = IntegrationParameters { dt: erp_inv_dt };
        self.multibody
            .coupling_velocity_constraints(link, &parameters, 0, &mut jacobians, &mut out);
        out.iter()
            .map(|constraint| RowConstraint::read(constraint, &jacobians))
            .collect()
    }

    pub fn set_body(&mut self, link: usize, given: &Body) {
        let velocity = |[x, y, angular]: [Real; 3]| RigidBodyVelocity {
            linvel: vector([x, y]),
            angvel: angular,
        };
        let link = &mut self.multibody.links[link];
        link.joint_velocity = velocity(given.joint_velocity);
        let body = self.bodies.index_mut_internal(link.rigid_body);
        body.mprops.mass = given.mass;
        body.mprops.inertia = given.inertia;
        body.forces.force = vector([given.force[0], given.force[1]]);
        body.forces.torque = given.force[2];
        body.vels = velocity(given.velocity);
    }

    pub fn accelerate(&mut self, dt: Real) {
        self.factor_undriven();
        self.multibody.update_acceleration(dt, &self.bodies);
    }

    /// `add_link` with no kinematics after it.
    pub fn add_link_alone(&mut self, link: &Link) {
        let body = self
            .bodies
            .insert(link.tag, RigidBody::new(RigidBodyType::Dynamic, vector(link.centre)));
        self.multibody.add_link(Some(link.parent), joint(link), body);
    }

    /// `integrate` with no kinematics after it.
    pub fn integrate_alone(&mut self, dt: Real) {
        self.multibody.integrate(dt);
    }

    /// `remove_link` with no kinematics after it, every body left dynamic as it was.
    pub fn take_part_alone(&mut self, link: usize, joint_only: bool, part: usize) {
        self.multibody = self.multibody.clone().remove_link(link, joint_only).swap_remove(part);
        self.forget_factors();
    }
}

/// `inverse_kinematics_delta_with_jacobian` on a Jacobian in three rows.
pub fn inverse_kinematics(rows: &[Real], damping: Real, movement: [Real; 3], displacements: &[Real]) -> Vec<Real> {
    let columns = displacements.len();
    let mut jacobian = Jacobian::zeros(columns);
    for (at, value) in rows.iter().enumerate() {
        jacobian[(at / columns, at % columns)] = *value;
    }
    let mut out = DVector::from_row_slice(displacements);
    let movement = na::SVector::from_array(movement);
    Multibody::inverse_kinematics_delta_with_jacobian(&jacobian, &movement, damping, &mut out);
    out.as_slice().to_vec()
}

pub fn inv(value: Real) -> Real {
    crate::utils::inv(value)
}
