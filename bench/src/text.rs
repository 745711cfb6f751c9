//! The crate's own text among its stand-ins, where it is at hand (`oracle/crate`). It tests nothing and refuses nothing; a move works every link out.

use crate::asked::Asked;
use giellavor::abi::Arm;

#[cfg(not(feature = "text"))]
pub fn time(_: &Arm, _: Asked) -> Option<f64> {
    None
}

#[cfg(feature = "text")]
pub use there::time;

#[cfg(feature = "text")]
mod there {
    use super::*;
    use crate::asked::{Call, DT, FORCE, LIMITS, VALUE};
    use crate::times::least;
    use giellavor::{Pose, axis};
    use rapier::{Link, Row, Softness};
    use std::hint::black_box;

    /// ns of a call; none for an addition, before which the arm would have to be copied.
    pub fn time(arm: &Arm, asked: Asked) -> Option<f64> {
        let arm = &mut of(arm);
        let [ns] = match asked {
            Asked::Call(call) => {
                if let Call::AddLink { .. } = call {
                    return None;
                }
                least([&mut || make(black_box(call), black_box(arm))])
            }
            Asked::LimitRow { link, mass } => {
                let softness = Softness {
                    dt: LIMITS.dt,
                    erp_inv_dt: LIMITS.erp_inv_dt,
                    cfm_coeff: LIMITS.cfm_coeff,
                };
                let bounds = [LIMITS.min, LIMITS.max];
                arm.set_mass(mass.to_vec());
                least([&mut || {
                    black_box(black_box(&mut *arm).limit(link as usize, ANGLE, LIMITS.position, bounds, softness));
                }])
            }
            Asked::FillJacobians { link, mass } => {
                arm.set_mass(mass.to_vec());
                least([&mut || {
                    black_box(black_box(&mut *arm).fill_jacobians(link as usize, [FORCE.x, FORCE.y], FORCE.torque));
                }])
            }
        };
        Some(ns)
    }

    const ANGLE: usize = axis::ANGLE as usize;

    fn make(call: Call, arm: &mut rapier::Arm) {
        match call {
            Call::WriteVelocity { link } => arm.set_row(Row::Velocities, link as usize, ANGLE, VALUE),
            Call::AddLink { .. } => {}
            Call::Move { link } => arm.move_coordinate(link as usize, axis::X as usize, VALUE),
            Call::FullWorking => arm.full_working(),
            Call::Step => arm.step(DT),
        }
    }

    /// The same links, coordinates and velocities.
    fn of(arm: &Arm) -> rapier::Arm {
        let floats = |Pose { re, im, x, y }: Pose| [re, im, x, y];
        let mut to = rapier::Arm::new(false);
        for (number, link) in arm.links[..arm.link_count].iter().enumerate() {
            let joint = &link.joint;
            to.add_link(&Link {
                tag: link.tag,
                parent: link.parent.into(),
                masks: [joint.locked, joint.limit, joint.motor],
                frames: [floats(joint.frame1), floats(joint.frame2)],
                centre: [link.centre.x, link.centre.y],
            });
            for (axis, value) in joint.coordinates.into_iter().enumerate() {
                to.move_coordinate(number, axis, value);
                to.set_row(Row::Velocities, number, axis, VALUE);
            }
        }
        to
    }
}
