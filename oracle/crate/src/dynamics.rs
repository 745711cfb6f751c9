//! Stand-in for `rapier2d::dynamics`; the files of joint/ and rigid_body_handle.rs are the crate's own.
pub use self::bodies::*;
pub use self::integration_parameters::IntegrationParameters;
pub use self::joint::*;
pub use self::rigid_body_handle::RigidBodyHandle;

include!(concat!(env!("OUT_DIR"), "/dynamics.rs"));

pub mod integration_parameters {
    //! Document 01 has the host give erp_inv_dt and cfm_coeff, so a softness is these two here.
    use crate::math::Real;

    #[derive(Copy, Clone, Debug, PartialEq)]
    pub struct IntegrationParameters {
        pub dt: Real,
    }
    impl IntegrationParameters {
        pub fn inv_dt(&self) -> Real {
            1.0 / self.dt
        }
    }

    #[derive(Copy, Clone, Debug, PartialEq)]
    pub enum SpringCoefficients<N> {
        Given {
            erp_inv_dt: N,
            cfm_coeff: N,
        },
        /// A coupling row uses its dt for erp_inv_dt alone, so the host's value is handed in as the dt.
        FromTimeStep,
    }
    impl SpringCoefficients<Real> {
        pub fn joint_defaults() -> Self {
            Self::FromTimeStep
        }
        pub fn erp_inv_dt(&self, dt: Real) -> Real {
            match *self {
                Self::Given { erp_inv_dt, .. } => erp_inv_dt,
                Self::FromTimeStep => dt,
            }
        }
        pub fn cfm_coeff(&self, _: Real) -> Real {
            match *self {
                Self::Given { cfm_coeff, .. } => cfm_coeff,
                Self::FromTimeStep => 0.0,
            }
        }
    }
}

mod bodies {
    //! Rigid bodies: only what the multibody files read of them.
    use crate::dynamics::RigidBodyHandle;
    use crate::math::{AngVector, Pose, Real, Rotation, Vector};
    use crate::utils::ScalarType;
    use std::collections::BTreeMap;
    use std::ops::Index;

    include!(concat!(env!("OUT_DIR"), "/bodies.rs"));

    impl RigidBodyVelocity<Real> {
        pub fn zero() -> Self {
            Self {
                linvel: Vector::ZERO,
                angvel: 0.0,
            }
        }
        pub fn transformed(self, rotation: &Rotation) -> Self {
            Self {
                linvel: *rotation * self.linvel,
                angvel: self.angvel,
            }
        }
    }

    #[derive(Clone, Debug)]
    pub struct RigidBodyPosition {
        pub position: Pose,
        pub next_position: Pose,
    }

    #[derive(Clone, Debug)]
    pub struct LocalMassProps {
        pub local_com: Vector,
    }

    #[derive(Clone, Debug)]
    pub struct RigidBodyMassProps {
        pub world_com: Vector,
        pub local_mprops: LocalMassProps,
        pub mass: Real,
        pub inertia: Real,
    }
    impl RigidBodyMassProps {
        pub fn effective_mass(&self) -> Vector {
            Vector::new(self.mass, self.mass)
        }
        pub fn effective_angular_inertia(&self) -> Real {
            self.inertia
        }
        pub fn update_world_mass_properties(&mut self, _: RigidBodyType, position: &Pose) {
            self.world_com = *position * self.local_mprops.local_com;
        }
    }

    #[derive(Clone, Debug)]
    pub struct RigidBodyForces {
        pub force: Vector,
        pub torque: AngVector,
    }

    #[derive(Clone, Debug)]
    pub struct RigidBody {
        pub pos: RigidBodyPosition,
        pub mprops: RigidBodyMassProps,
        pub vels: RigidBodyVelocity<Real>,
        pub forces: RigidBodyForces,
        pub body_type: RigidBodyType,
    }
    impl RigidBody {
        pub fn new(body_type: RigidBodyType, local_com: Vector) -> Self {
            Self {
                pos: RigidBodyPosition {
                    position: Pose::IDENTITY,
                    next_position: Pose::IDENTITY,
                },
                mprops: RigidBodyMassProps {
                    world_com: Vector::ZERO,
                    local_mprops: LocalMassProps { local_com },
                    mass: 1.0,
                    inertia: 1.0,
                },
                vels: RigidBodyVelocity::zero(),
                forces: RigidBodyForces {
                    force: Vector::ZERO,
                    torque: 0.0,
                },
                body_type,
            }
        }
        pub fn is_fixed(&self) -> bool {
            self.body_type.is_fixed()
        }
        pub fn is_dynamic(&self) -> bool {
            self.body_type.is_dynamic()
        }
        pub fn position(&self) -> &Pose {
            &self.pos.position
        }
    }

    /// Bodies by the index of their handle, which is the link's tag.
    #[derive(Clone, Debug, Default)]
    pub struct RigidBodySet(BTreeMap<u32, RigidBody>);
    impl RigidBodySet {
        pub fn insert(&mut self, tag: u32, body: RigidBody) -> RigidBodyHandle {
            self.0.insert(tag, body);
            RigidBodyHandle::from_raw_parts(tag, 0)
        }
        pub fn get(&self, body: RigidBodyHandle) -> Option<&RigidBody> {
            self.0.get(&body.into_raw_parts().0)
        }
        pub(crate) fn get_mut_internal(&mut self, body: RigidBodyHandle) -> Option<&mut RigidBody> {
            self.0.get_mut(&body.into_raw_parts().0)
        }
        pub(crate) fn get_mut_internal_with_modification_tracking(
            &mut self,
            body: RigidBodyHandle,
        ) -> Option<&mut RigidBody> {
            self.get_mut_internal(body)
        }
        pub(crate) fn index_mut_internal(&mut self, body: RigidBodyHandle) -> &mut RigidBody {
            self.get_mut_internal(body).expect("no such body")
        }
    }
    impl Index<RigidBodyHandle> for RigidBodySet {
        type Output = RigidBody;
        fn index(&self, body: RigidBodyHandle) -> &RigidBody {
            self.get(body).expect("no such body")
        }
    }
}

pub(crate) mod solver {
    //! The records that constraint rows are written into.
    use crate::math::Real;

    #[derive(Copy, Clone, Debug, PartialEq)]
    pub enum WritebackId {
        Dof(usize),
        Limit(usize),
        Motor(usize),
        Friction(usize),
    }

    #[derive(Copy, Clone, Debug)]
    pub struct GenericJointConstraint {
        pub is_rigid_body1: bool,
        pub is_rigid_body2: bool,
        pub solver_vel1: u32,
        pub solver_vel2: u32,
        pub ndofs1: usize,
        pub j_id1: usize,
        pub ndofs2: usize,
        pub j_id2: usize,
        pub joint_id: usize,
        pub impulse: Real,
        pub impulse_bounds: [Real; 2],
        pub inv_lhs: Real,
        pub rhs: Real,
        pub rhs_wo_bias: Real,
        pub cfm_coeff: Real,
        pub cfm_gain: Real,
        pub writeback_id: WritebackId,
    }
    impl GenericJointConstraint {
        pub fn blank() -> Self {
            Self {
                is_rigid_body1: false,
                is_rigid_body2: false,
                solver_vel1: 0,
                solver_vel2: 0,
                ndofs1: 0,
                j_id1: 0,
                ndofs2: 0,
                j_id2: 0,
                joint_id: 0,
                impulse: 0.0,
                impulse_bounds: [0.0; 2],
                inv_lhs: 0.0,
                rhs: 0.0,
                rhs_wo_bias: 0.0,
                cfm_coeff: 0.0,
                cfm_gain: 0.0,
                writeback_id: WritebackId::Dof(0),
            }
        }
    }

    #[derive(Copy, Clone, Debug)]
    pub(crate) struct MotorParameters<N> {
        pub erp_inv_dt: N,
        pub cfm_coeff: N,
        pub cfm_gain: N,
        pub target_pos: N,
        pub target_vel: N,
        pub max_impulse: N,
    }
}

pub mod joint {
    pub use self::fixed_joint::*;
    pub use self::generic_joint::*;
    pub use self::motor_model::MotorModel;
    pub use self::multibody_joint::*;

    include!(concat!(env!("OUT_DIR"), "/joint.rs"));

    /// Joint kinds whose files aren't at hand: the wrappers that generic_joint.rs names.
    #[repr(transparent)]
    pub struct PrismaticJoint {
        pub data: GenericJoint,
    }
    #[repr(transparent)]
    pub struct RevoluteJoint {
        pub data: GenericJoint,
    }
    #[repr(transparent)]
    pub struct RopeJoint {
        pub data: GenericJoint,
    }

    pub mod multibody_joint {
        pub use self::multibody::{Multibody, MultibodyDofCoupling};
        pub use self::multibody_joint::MultibodyJoint;
        pub use self::multibody_link::MultibodyLink;
        pub use self::unit_multibody_joint::{
            unit_joint_friction_constraint, unit_joint_limit_constraint, unit_joint_motor_constraint,
        };

        include!(concat!(env!("OUT_DIR"), "/multibody_joint.rs"));
    }
}
