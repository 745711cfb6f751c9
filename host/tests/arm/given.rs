//! What several tests give. No two floats of one are alike, so that none stands in another's place.

use giellavor::{Arm, Force, Limits, NewLink, Pose, Spring};

pub const SPRING: Spring = Spring {
    stiffness: 3.0,
    rest: 0.5,
};
pub const LIMITS: Limits = Limits {
    position: 1.5,
    min: -0.75,
    max: 1.25,
    dt: 0.1,
    erp_inv_dt: 7.0,
    cfm_coeff: 0.5,
};
pub const FORCE: Force = Force {
    x: 1.0,
    y: 0.5,
    torque: -0.25,
};

/// A fixed root, tag 10, and a link hinged to it, tag 11.
pub fn hinge() -> Arm {
    let mut arm = Arm::new();
    arm.add_link(NewLink::fixed(10, 0)).unwrap();
    arm.add_link(NewLink {
        frame1: Pose::at(1.0, 0.0),
        ..NewLink::hinged(11, 0)
    })
    .unwrap();
    arm
}
