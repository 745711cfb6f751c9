//! What is asked of an arm, as each side has it.

use crate::arms::{CENTRE, FRAME1, FRAME2, plain_point, plain_pose};
use giellavor::abi::{Edited, NewLink};
use giellavor::{Force, Limits, axis, ffi};
use plain::{Answer, RowName, tree};

/// What is asked of an arm.
#[derive(Clone, Copy)]
#[cfg_attr(not(feature = "text"), allow(dead_code))]
pub enum Asked<'a> {
    Call(Call),
    LimitRow { link: u32, mass: &'a [f32] },
    FillJacobians { link: u32, mass: &'a [f32] },
}

/// A call on a chain, as each side has it.
#[derive(Clone, Copy, Debug)]
pub enum Call {
    WriteVelocity { link: u32 },
    AddLink { parent: u32 },
    Move { link: u32 },
    FullWorking,
    Step,
}

const TAG: u32 = 7;
pub const VALUE: f32 = 0.5;
/// Nothing moves, so that every call is the same.
pub const DT: f32 = 0.0;

impl Call {
    /// The refusal's number, 0 for none.
    pub fn ours(self, edited: &mut Edited, tables: &mut [f32]) -> u8 {
        match self {
            Call::WriteVelocity { link } => ffi::write_velocity(edited, link, axis::ANGLE, VALUE),
            Call::AddLink { parent } => {
                let new = NewLink {
                    frame1: FRAME1,
                    frame2: FRAME2,
                    centre: CENTRE,
                    ..NewLink::free(TAG, parent)
                };
                ffi::add_link(edited, tables, new)
            }
            Call::Move { link } => ffi::move_coordinate(edited, tables, link, axis::X, VALUE),
            Call::FullWorking => ffi::full_working(edited, tables),
            Call::Step => ffi::step(edited, tables, DT),
        }
    }

    pub fn rust(self, arm: &mut plain::Arm, tables: &mut [f32]) -> Answer {
        match self {
            Call::WriteVelocity { link } => arm.write_row(RowName::Velocities, link, axis::ANGLE, VALUE),
            Call::AddLink { parent } => {
                let new = tree::NewLink {
                    tag: TAG,
                    parent,
                    locked: 0,
                    limit: 0,
                    motor: 0,
                    frame1: plain_pose(FRAME1),
                    frame2: plain_pose(FRAME2),
                    com: plain_point(CENTRE),
                };
                arm.add_link(tables, &new)
            }
            Call::Move { link } => arm.move_coordinate(tables, link, axis::X, VALUE),
            Call::FullWorking => arm.work_out(tables),
            Call::Step => arm.step(tables, DT),
        }
    }
}

/// Plain Rust with an arm that goes in by value and comes out in its place.
#[inline(never)]
pub fn by_value(arm: &mut plain::Arm, tables: &mut [f32], call: Call) -> Answer {
    let mut own = arm.clone();
    let answer = call.rust(&mut own, tables);
    *arm = own;
    answer
}

pub const LIMITS: Limits = Limits {
    position: 2.0,
    min: 0.0,
    max: 1.0,
    dt: 0.125,
    erp_inv_dt: 10.0,
    cfm_coeff: 0.5,
};

pub const FORCE: Force = Force {
    x: 0.5,
    y: 0.25,
    torque: -0.5,
};
