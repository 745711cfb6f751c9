//! The arms that are timed, the same on each side.

use giellavor::abi::{Arm, Edited, Point, Pose};
use giellavor::{COUPLINGS, NewCoupling, NewLink, Refusal, RowName, Spring};

/// An arm as it crosses the boundary, and its tables.
pub type Ours = (Arm, Vec<f32>);

/// The same in plain Rust.
pub type Plain = (plain::Arm, Vec<f32>);

pub const FRAME1: Pose = pose(0.8, 0.6, 0.5, 0.25);
pub const FRAME2: Pose = pose(0.6, 0.8, 0.125, 0.5);
pub const CENTRE: Point = Point { x: 0.375, y: 0.75 };

const fn pose(re: f32, im: f32, x: f32, y: f32) -> Pose {
    Pose { re, im, x, y }
}

/// A chain of links, each free on every axis, with its springs and rows set and as many couplings as fit.
pub fn chain(links: usize) -> Result<Ours, Refusal> {
    let mut arm = giellavor::Arm::new();
    for link in 0..links as u32 {
        arm.add_link(NewLink {
            frame1: FRAME1,
            frame2: FRAME2,
            centre: CENTRE,
            ..NewLink::free(100 + link, link.saturating_sub(1))
        })?;
        for (axis, value) in (0..).zip([0.25, -0.5, 0.75]) {
            arm.move_coordinate(link, axis, value)?;
            arm.set_spring(
                link,
                axis,
                Spring {
                    stiffness: 0.25,
                    rest: 0.25,
                },
            )?;
            for row in RowName::ALL {
                arm.write_row(row, link, axis, 0.25)?;
            }
        }
    }
    for _ in 0..COUPLINGS {
        arm.add_coupling(NewCoupling {
            coefficient: 0.5,
            ..NewCoupling::between(0, 0, 0, 1)
        })?;
    }
    Ok((*arm.state(), arm.tables().to_vec()))
}

/// The arm where a call takes it from, and puts its answer.
pub fn handed_in((arm, _): &Ours) -> Edited {
    Edited { arm: *arm, refusal: 0 }
}

pub fn plain_of((arm, tables): &Ours) -> Plain {
    let mut to = plain::Arm::EMPTY;
    to.link_count = arm.link_count;
    to.coupling_count = arm.coupling_count;
    for (to, link) in to.links.iter_mut().zip(&arm.links[..arm.link_count]) {
        let joint = &link.joint;
        to.tag = link.tag;
        to.parent = link.parent;
        to.joint = plain::Joint {
            locked: joint.locked,
            limit: joint.limit,
            motor: joint.motor,
            frame1: plain_pose(joint.frame1),
            frame2: plain_pose(joint.frame2),
            coords: joint.coordinates,
            rot: plain::Rotation {
                re: joint.rotation.re,
                im: joint.rotation.im,
            },
            stiffness: joint.stiffness,
            rest: joint.rest,
        };
        to.com = plain_point(link.centre);
        to.kept = plain::arm::Kept {
            pose: plain_pose(link.world),
            shift02: plain_point(link.shift02),
            shift23: plain_point(link.shift23),
        };
    }
    for (to, coupling) in to.couplings.iter_mut().zip(&arm.couplings[..arm.coupling_count]) {
        *to = plain::Coupling {
            link1: coupling.link1,
            axis1: coupling.axis1,
            link2: coupling.link2,
            axis2: coupling.axis2,
            coeff: coupling.coefficient,
            offset: coupling.offset,
        };
    }
    to.rows = arm.rows.map(|row| row.entries);
    (to, tables.clone())
}

pub fn plain_pose(Pose { re, im, x, y }: Pose) -> plain::Pose {
    plain::Pose::new(re, im, x, y)
}

pub fn plain_point(Point { x, y }: Point) -> plain::Point {
    plain::Point { x, y }
}

/// The same bits.
pub fn same(a: &[f32], b: &[f32]) -> bool {
    a.iter().map(|x| x.to_bits()).eq(b.iter().map(|x| x.to_bits()))
}

/// Every float of an arm up to its counts, and of its tables, with its sign; no two floats are told alike.
pub fn told((arm, tables): &Plain) -> String {
    let rows = arm.rows.each_ref().map(|row| &row[..arm.dofs()]);
    format!("{:?} {:?} {rows:?} {tables:?}", arm.links(), arm.couplings())
}

/// A mass matrix of n rows, whose diagonal outweighs the rest.
pub fn mass(n: usize) -> Vec<f32> {
    let entry = |i: usize, j: usize| {
        if i == j {
            n as f32 + 1.0
        } else {
            1.0 / (1 + i + j) as f32
        }
    };
    (0..n * n).map(|at| entry(at / n, at % n)).collect()
}
