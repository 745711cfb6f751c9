//! What is compared of an arm, by its bits: a float is itself alone, so that −0 is not +0 and a NaN is the same NaN.

use crate::abi::{Coupling, Joint, Link, Point, Pose};

pub(crate) fn of_floats(floats: &[f32]) -> impl Iterator<Item = u32> {
    floats.iter().map(|x| x.to_bits())
}

/// What is kept of a link: its pose and its shifts.
pub(crate) fn of_kept(link: &Link) -> impl Iterator<Item = u32> + use<> {
    let points = [link.shift02, link.shift23].into_iter().flat_map(of_point);
    of_pose(link.world).into_iter().chain(points)
}

/// Every field of a link.
pub(crate) fn of_link(link: &Link) -> impl Iterator<Item = u32> + use<> {
    let Link {
        tag,
        parent,
        joint,
        centre,
        world: _,
        shift02: _,
        shift23: _,
    } = *link;
    let given = [tag, parent.into()].into_iter().chain(of_point(centre));
    given.chain(of_joint(joint)).chain(of_kept(link))
}

fn of_joint(joint: Joint) -> impl Iterator<Item = u32> {
    let Joint {
        locked,
        limit,
        motor,
        frame1,
        frame2,
        coordinates,
        rotation,
        stiffness,
        rest,
    } = joint;
    let masks = [locked, limit, motor].map(u32::from);
    let frames = [frame1, frame2].into_iter().flat_map(of_pose);
    let axes = [coordinates, stiffness, rest].into_iter().flatten();
    let floats = axes.chain([rotation.re, rotation.im]).map(f32::to_bits);
    masks.into_iter().chain(frames).chain(floats)
}

/// Every field of a coupling.
pub(crate) fn of_coupling(coupling: &Coupling) -> [u32; 6] {
    let Coupling {
        link1,
        axis1,
        link2,
        axis2,
        coefficient,
        offset,
    } = *coupling;
    let [link1, axis1, link2, axis2] = [link1, axis1, link2, axis2].map(u32::from);
    [link1, axis1, link2, axis2, coefficient.to_bits(), offset.to_bits()]
}

fn of_pose(Pose { re, im, x, y }: Pose) -> [u32; 4] {
    [re, im, x, y].map(f32::to_bits)
}

fn of_point(Point { x, y }: Point) -> [u32; 2] {
    [x, y].map(f32::to_bits)
}
