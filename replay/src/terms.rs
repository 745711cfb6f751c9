//! What a script gives, as the library takes it.

use giellavor::abi::{NewCoupling, NewLink};
use giellavor::{Limits, Point, Pose};

pub fn pose([re, im, x, y]: script::Pose) -> Pose {
    Pose { re, im, x, y }
}

pub fn floats_of(pose: Pose) -> script::Pose {
    [pose.re, pose.im, pose.x, pose.y]
}

pub fn point([x, y]: [f32; 2]) -> Point {
    Point { x, y }
}

pub fn new_link(new: &script::NewLink) -> NewLink {
    NewLink {
        tag: new.tag,
        parent: new.parent,
        locked: new.locked,
        limit: new.limit,
        motor: new.motor,
        frame1: pose(new.frame1),
        frame2: pose(new.frame2),
        centre: point(new.com),
    }
}

pub fn new_coupling(new: &script::NewCoupling) -> NewCoupling {
    let ([link1, link2], [axis1, axis2]) = (new.links, new.axes);
    NewCoupling {
        link1,
        axis1,
        link2,
        axis2,
        coefficient: new.coeff,
        offset: new.offset,
    }
}

pub fn limits(limit: &script::Limit) -> Limits {
    Limits {
        position: limit.pos,
        min: limit.min,
        max: limit.max,
        dt: limit.dt,
        erp_inv_dt: limit.erp_inv_dt,
        cfm_coeff: limit.cfm_coeff,
    }
}
