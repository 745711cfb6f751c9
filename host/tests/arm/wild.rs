//! Arguments by chance, as the calls take them: good ones mostly, and as often as a hand's nature has it others, any bits at all among them.

use crate::calls::{Call, World};
use crate::memory::Memory;
use generate::shape::ShapeLink;
use generate::{Hand, Nature, Rng, Shape, floats, masses};
use giellavor::abi::{Arm, Force, Limits, NewCoupling, NewLink, Point, Pose, Spring};
use giellavor::{BLOCK, COUPLINGS, DOFS, LINKS, TABLES};

/// A hand that draws something odd so many times in a thousand.
pub fn hand(seed: u64, fault: usize) -> Hand {
    Hand {
        rng: Rng::new(seed, 0),
        nature: nature(fault),
    }
}

pub fn nature(fault: usize) -> Nature {
    Nature { fault, ..Nature::CALM }
}

/// What a hand has to know of an arm.
pub fn shape(arm: &Arm) -> Shape {
    let links = arm.links.iter().take(arm.link_count);
    let couplings = arm.couplings.iter().take(arm.coupling_count);
    Shape {
        links: links
            .map(|link| ShapeLink {
                tag: link.tag,
                parent: link.parent.into(),
                locked: link.joint.locked.into(),
            })
            .collect(),
        couplings: couplings
            .map(|coupling| [coupling.link1, coupling.link2].map(usize::from))
            .collect(),
    }
}

// ---- What is given

/// The number that was drawn, or as the nature has it any.
fn or_odd(hand: &mut Hand, number: u32) -> u32 {
    match hand.faulty() {
        true => hand.odd_number(LINKS),
        false => number,
    }
}

pub fn point(hand: &mut Hand) -> Point {
    let [x, y] = hand.point();
    Point { x, y }
}

pub fn pose(hand: &mut Hand) -> Pose {
    to_pose(hand.pose())
}

fn to_pose([re, im, x, y]: [f32; 4]) -> Pose {
    Pose { re, im, x, y }
}

pub fn spring(hand: &mut Hand) -> Spring {
    Spring {
        stiffness: hand.float(),
        rest: hand.float(),
    }
}

pub fn force(hand: &mut Hand) -> Force {
    Force {
        x: hand.float(),
        y: hand.float(),
        torque: hand.float(),
    }
}

pub fn new_link(hand: &mut Hand, shape: &Shape) -> NewLink {
    let new = hand.new_link(shape);
    let [x, y] = new.com;
    NewLink {
        tag: new.tag,
        parent: new.parent,
        locked: or_odd(hand, new.locked),
        limit: or_odd(hand, new.limit),
        motor: or_odd(hand, new.motor),
        frame1: to_pose(new.frame1),
        frame2: to_pose(new.frame2),
        centre: Point { x, y },
    }
}

pub fn coupling(hand: &mut Hand, shape: &Shape) -> NewCoupling {
    let new = hand.coupling(shape);
    let ([link1, link2], [axis1, axis2]) = (new.links, new.axes);
    NewCoupling {
        link1,
        axis1,
        link2,
        axis2,
        coefficient: new.coeff,
        offset: new.offset,
    }
}

pub fn limits(hand: &mut Hand) -> Limits {
    let limit = hand.limit();
    Limits {
        position: limit.pos,
        min: limit.min,
        max: limit.max,
        dt: limit.dt,
        erp_inv_dt: limit.erp_inv_dt,
        cfm_coeff: limit.cfm_coeff,
    }
}

/// Any count at all.
fn any_count(rng: &mut Rng) -> usize {
    (rng.bits() as usize) << 32 | rng.bits() as usize
}

// ---- Calls

pub fn call(hand: &mut Hand, world: &World) -> Call {
    let shape = &shape(&world.arm);
    let (link, [of, axis]) = (hand.link(shape), hand.free_axis(shape));
    let part = hand.rng.below(3) as u32;
    match hand.rng.below(36) {
        0 if hand.rng.one_in(20) => Call::Empty,
        0 => Call::FullWorking,
        1..=5 => Call::AddLink(new_link(hand, shape)),
        6 => Call::AddCoupling(coupling(hand, shape)),
        7 => Call::WriteVelocity(of, axis, hand.float()),
        8 => Call::WriteDamping(of, axis, hand.float()),
        9 => Call::WriteArmature(of, axis, hand.float()),
        10 => Call::WriteFriction(of, axis, hand.float()),
        11 => Call::WriteAcceleration(of, axis, hand.float()),
        12 => Call::SetSpring(link, hand.axis(shape), spring(hand)),
        13..=15 => Call::MoveCoordinate(of, axis, hand.coordinate(axis)),
        16 => Call::MoveFrames(link, pose(hand), pose(hand)),
        17 => Call::MoveCentre(link, point(hand)),
        18 => Call::Step(hand.float()),
        19 => Call::FreeRoot(pose(hand)),
        20 => Call::FixRoot(pose(hand)),
        21 => Call::PartDelete(link, or_odd(hand, part)),
        22 => Call::PartCut(link, or_odd(hand, part)),
        23 => Call::LinkStart(link),
        24 => Call::ArmDofs,
        25 => Call::Spring(link, hand.axis(shape)),
        26 => Call::MulCoordinates(link),
        27 => Call::Branch(link),
        28 => Call::SplitDelete(link),
        29 => Call::SplitCut(link),
        30 => Call::ViewVelocities(link),
        31 => Call::ViewAccelerations(link),
        32 => Call::LimitRow(of, axis, limits(hand)),
        33 => Call::FrictionRow(of, axis, hand.float(), hand.cfm_coeff()),
        34 => Call::FillJacobians(link, force(hand)),
        _ if hand.faulty() => Call::Solve(any_count(&mut hand.rng)),
        _ => Call::Solve(world.dofs() + hand.rng.below(3) / 2),
    }
}

// ---- Lent memory

fn length(hand: &mut Hand, needed: usize) -> usize {
    match hand.faulty() {
        true => hand.rng.below(needed + 8),
        false => needed + hand.rng.below(3),
    }
}

fn floats_for(hand: &mut Hand, needed: usize) -> Memory<f32> {
    let length = length(hand, needed);
    Memory::new(hand.floats(length))
}

/// A matrix of n rows, regular mostly, in memory that may be shorter or longer.
fn mass(hand: &mut Hand, n: usize) -> Memory<f32> {
    let mut mass = masses::any(hand, n);
    mass.resize(length(hand, n * n), hand.float());
    Memory::new(mass)
}

/// Lends other memory: the lengths, and what stands in it, are new.
pub fn lend(hand: &mut Hand, world: &mut World) {
    let n = world.dofs();
    match hand.rng.below(5) {
        0 => {
            let length = length(hand, TABLES);
            let old = world.tables.lent().to_vec();
            world.tables = Memory::new((0..length).map(|at| old.get(at).copied().unwrap_or(f32::NAN)));
        }
        1 => {
            let length = length(hand, 2 * LINKS);
            world.bytes = Memory::new((0..length).map(|_| hand.rng.bits() as u8));
        }
        2 => (world.j, world.wj) = (floats_for(hand, n), floats_for(hand, n)),
        3 => (world.velocities, world.accelerations) = (floats_for(hand, n), floats_for(hand, n)),
        _ => world.mass = mass(hand, n),
    }
}

// ---- Broken arms

/// Breaks something of an arm, or of its tables.
pub fn damage(rng: &mut Rng, world: &mut World) {
    let World { arm, tables, .. } = world;
    let other = arm.links[rng.below(LINKS)];
    let link = &mut arm.links[rng.below(LINKS)];
    let coupling = &mut arm.couplings[rng.below(COUPLINGS)];
    let byte = rng.number(9) as u8;
    let float = match rng.below(2) {
        0 => f32::from_bits(rng.bits()),
        _ => floats::odd(rng),
    };
    match rng.below(20) {
        0 => arm.link_count = rng.number(20) as usize,
        1 => arm.link_count = any_count(rng),
        2 => arm.coupling_count = rng.number(10) as usize,
        3 => arm.coupling_count = any_count(rng),
        4 => link.tag = other.tag,
        5 => link.parent = byte,
        6 => link.joint.locked = byte,
        7 => link.joint.limit = byte,
        8 => link.joint.motor = byte,
        9 => link.joint.frame1.re = float,
        10 => link.joint.frame2.x = float,
        11 => link.joint.coordinates[rng.below(3)] = float,
        12 => link.joint.rotation.im = float,
        13 => link.joint.stiffness[rng.below(3)] = float,
        14 => link.centre.y = float,
        15 => link.world.x = float,
        16 => link.shift02.x = float,
        17 => coupling.link1 = byte,
        18 => coupling.offset = float,
        _ => arm.rows[rng.below(5)].entries[rng.below(DOFS)] = float,
    }
    if let Some(place) = tables.lent().get_mut(rng.below(LINKS * BLOCK)) {
        *place = float;
    }
}
