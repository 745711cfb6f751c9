//! Every refusal of every call that can give it: for an arm that is broken, for memory that is too short, and for the arguments themselves.

use crate::calls::{Call, World, empty_arm};
use crate::given::{FORCE, LIMITS, SPRING};
use crate::memory::{Memory, ORIGIN, bits};
use giellavor::abi::{Arm, Force, Limits, NewCoupling, NewLink, Pose, Spring};
use giellavor::{BLOCK, COUPLINGS, DOFS, LINKS, TABLES};
use std::collections::BTreeSet;

const HUGE: f32 = 3e38;
const TWICE: Pose = Pose {
    re: 2.0,
    im: 0.0,
    x: 0.0,
    y: 0.0,
};
const COUPLING: NewCoupling = NewCoupling {
    link1: 1,
    axis1: 2,
    link2: 2,
    axis2: 2,
    coefficient: 1.0,
    offset: 0.0,
};

/// A fixed root; below it a hinged link with a free one below, and a fixed one. Four DoFs, one coupling, a mass matrix of ones on the diagonal.
fn world() -> World {
    let mut world = World::new();
    world.done(Call::AddLink(NewLink::fixed(10, 0)));
    world.done(Call::AddLink(NewLink {
        frame1: Pose::at(1.0, 0.0),
        ..NewLink::hinged(11, 0)
    }));
    world.done(Call::AddLink(NewLink::free(12, 1)));
    world.done(Call::AddLink(NewLink::fixed(13, 0)));
    world.done(Call::AddCoupling(COUPLING));
    (0..4).for_each(|i| world.mass.lent()[5 * i] = 1.0);
    world
}

/// One call of each kind that is done in that world.
fn good() -> Vec<Call> {
    let calls = vec![
        Call::Empty,
        Call::AddLink(NewLink::fixed(14, 2)),
        Call::AddCoupling(COUPLING),
        Call::WriteVelocity(2, 1, 1.0),
        Call::WriteDamping(2, 1, 1.0),
        Call::WriteArmature(2, 1, 1.0),
        Call::WriteFriction(2, 1, 1.0),
        Call::WriteAcceleration(2, 1, 1.0),
        Call::SetSpring(3, 0, SPRING),
        Call::MoveCoordinate(2, 0, 1.0),
        Call::MoveFrames(1, Pose::IDENTITY, Pose::IDENTITY),
        Call::MoveCentre(1, ORIGIN),
        Call::FullWorking,
        Call::Step(0.1),
        Call::FreeRoot(Pose::IDENTITY),
        Call::FixRoot(Pose::IDENTITY),
        Call::PartDelete(1, 1),
        Call::PartCut(1, 1),
        Call::LinkStart(2),
        Call::ArmDofs,
        Call::Spring(3, 0),
        Call::MulCoordinates(2),
        Call::Branch(2),
        Call::SplitDelete(1),
        Call::SplitCut(1),
        Call::ViewVelocities(2),
        Call::ViewAccelerations(2),
        Call::LimitRow(2, 1, LIMITS),
        Call::FrictionRow(2, 1, 0.1, 0.5),
        Call::FillJacobians(2, FORCE),
        Call::Solve(4),
    ];
    assert_eq!(calls.len(), Call::COUNT);
    calls
}

/// What a call answers in a world, held against what it left.
fn answer(world: &World, call: Call) -> u8 {
    let mut after = world.clone();
    let came = call.make(&mut after);
    after.check(world, &came, call);
    came.refusal
}

/// Which refusals of which calls have been met.
#[derive(Default)]
struct Met(BTreeSet<(String, u8)>);

impl Met {
    fn meets(&mut self, world: &World, call: Call, number: u8) {
        assert_eq!(answer(world, call), number, "{call:?}");
        self.0.insert((call.name(), number));
    }
}

#[test]
fn a_good_call_is_done() {
    for call in good() {
        assert_eq!(answer(&world(), call), 0, "{call:?}");
    }
}

// ---- A broken arm

pub type Damage = fn(&mut Arm);

/// Ways to break an arm, with the rule that each breaks.
pub const BROKEN: [(u8, Damage); 29] = [
    (2, |arm| arm.link_count = LINKS + 1),
    (2, |arm| arm.link_count = usize::MAX),
    (2, |arm| arm.coupling_count = COUPLINGS + 1),
    (3, |arm| arm.links[3].tag = arm.links[1].tag),
    (4, |arm| arm.links[0].parent = 1),
    (4, |arm| arm.links[2].parent = 2),
    (4, |arm| arm.links[1].parent = 255),
    (4, |arm| arm.couplings[0].link1 = 4),
    (4, |arm| arm.couplings[0].link2 = 255),
    (5, |arm| arm.links[1].joint.locked = 8),
    (5, |arm| arm.links[1].joint.limit = 255),
    (5, |arm| arm.links[1].joint.motor = 8),
    (5, |arm| arm.links[0].joint.locked = 3),
    (5, |arm| arm.couplings[0].axis1 = 3),
    (5, |arm| arm.couplings[0].axis2 = 255),
    (7, |arm| arm.links[1].joint.frame1.re = f32::NAN),
    (7, |arm| arm.links[1].joint.frame2.y = f32::INFINITY),
    (7, |arm| arm.links[1].joint.coordinates[0] = f32::NEG_INFINITY),
    (7, |arm| arm.links[1].joint.rotation.im = f32::NAN),
    (7, |arm| arm.links[1].joint.stiffness[1] = f32::NAN),
    (7, |arm| arm.links[1].joint.rest[2] = f32::INFINITY),
    (7, |arm| arm.links[1].centre.x = f32::NAN),
    (7, |arm| arm.links[1].world.x = f32::NAN),
    (7, |arm| arm.links[1].shift02.y = f32::NAN),
    (7, |arm| arm.links[1].shift23.x = f32::NAN),
    (7, |arm| arm.couplings[0].coefficient = f32::NAN),
    (7, |arm| arm.rows[4].entries[3] = f32::NAN),
    (9, |arm| arm.links[3].joint.coordinates[2] = 256.00003),
    (9, |arm| arm.links[1].joint.coordinates[2] = -256.00003),
];

fn takes_an_arm(call: &Call) -> bool {
    !matches!(call, Call::Empty | Call::Solve(_))
}

fn broken_arms(met: &mut Met) {
    for (number, damage) in BROKEN {
        let mut world = world();
        damage(&mut world.arm);
        for call in good().into_iter().filter(takes_an_arm) {
            met.meets(&world, call, number);
        }
    }
}

#[test]
fn what_does_not_count_may_hold_anything() {
    let mut world = world();
    world.arm.links[4].joint.frame1.re = f32::NAN;
    world.arm.links[15].parent = 255;
    world.arm.couplings[1].axis1 = 255;
    world.arm.rows[0].entries[4] = f32::NAN;
    world.arm.links[0].joint.coordinates[2] = 256.0;
    for call in good() {
        assert_eq!(answer(&world, call), 0, "{call:?}");
    }
}

// ---- Memory that is too short

fn short_memory(met: &mut Met) {
    let short = |n: usize| Memory::new(vec![0.0; n]);
    let mut tables = world();
    tables.tables = short(TABLES - 1);
    let (mut bytes, mut few) = (world(), world());
    bytes.bytes = Memory::new([0; 2]);
    few.bytes = Memory::new([0; 7]);
    let with = |change: fn(&mut World, Memory<f32>), n: usize| {
        let mut world = world();
        change(&mut world, short(n));
        world
    };
    let mass = with(|world, memory| world.mass = memory, 15);
    let j = with(|world, memory| world.j = memory, 3);
    let wj = with(|world, memory| world.wj = memory, 3);
    let velocities = with(|world, memory| world.velocities = memory, 3);
    let accelerations = with(|world, memory| world.accelerations = memory, 2);
    for call in good() {
        let worlds: &[&World] = match call {
            Call::Branch(_) => &[&bytes],
            Call::SplitDelete(_) | Call::SplitCut(_) => &[&few],
            Call::ViewVelocities(_) | Call::ViewAccelerations(_) => &[&velocities, &accelerations],
            Call::MulCoordinates(_) => &[&accelerations],
            Call::LimitRow(..) | Call::FrictionRow(..) | Call::Solve(_) => &[&mass, &j, &wj],
            Call::FillJacobians(..) => &[&tables, &mass, &j, &wj],
            _ if call.refusals().contains(&1) => &[&tables],
            _ => &[],
        };
        for world in worlds {
            met.meets(world, call, 1);
        }
    }
}

// ---- The arguments

/// A call that names a link and an axis, and the same with others.
fn renamed(call: Call) -> Option<fn(u32, u32) -> Call> {
    Some(match call {
        Call::WriteVelocity(..) => |link, axis| Call::WriteVelocity(link, axis, 1.0),
        Call::WriteDamping(..) => |link, axis| Call::WriteDamping(link, axis, 1.0),
        Call::WriteArmature(..) => |link, axis| Call::WriteArmature(link, axis, 1.0),
        Call::WriteFriction(..) => |link, axis| Call::WriteFriction(link, axis, 1.0),
        Call::WriteAcceleration(..) => |link, axis| Call::WriteAcceleration(link, axis, 1.0),
        Call::MoveCoordinate(..) => |link, axis| Call::MoveCoordinate(link, axis, 1.0),
        Call::LimitRow(..) => |link, axis| Call::LimitRow(link, axis, LIMITS),
        Call::FrictionRow(..) => |link, axis| Call::FrictionRow(link, axis, 0.1, 0.5),
        _ => return None,
    })
}

fn links_and_axes(met: &mut Met) {
    let world = world();
    for with in good().into_iter().filter_map(renamed) {
        for link in [4, 5, 255, 256, u32::MAX] {
            met.meets(&world, with(link, 0), 4);
        }
        for axis in [3, 255, 256 + 1, u32::MAX] {
            met.meets(&world, with(2, axis), 5);
        }
        met.meets(&world, with(1, 0), 6);
        met.meets(&world, with(3, 2), 6);
        // The lowest: no such link, and no such axis.
        met.meets(&world, with(4, 3), 4);
    }
    let no_link: [fn(u32) -> Call; 15] = [
        |link| Call::SetSpring(link, 0, SPRING),
        |link| Call::Spring(link, 0),
        |link| Call::MoveFrames(link, Pose::IDENTITY, Pose::IDENTITY),
        |link| Call::MoveCentre(link, ORIGIN),
        |link| Call::PartDelete(link, 0),
        |link| Call::PartCut(link, 0),
        Call::LinkStart,
        Call::MulCoordinates,
        Call::Branch,
        Call::SplitDelete,
        Call::SplitCut,
        Call::ViewVelocities,
        Call::ViewAccelerations,
        |link| Call::FillJacobians(link, FORCE),
        |link| Call::AddLink(NewLink::fixed(14, link)),
    ];
    for with in no_link {
        for link in [4, 256, u32::MAX] {
            met.meets(&world, with(link), 4);
        }
    }
    met.meets(&world, Call::SetSpring(1, 3, SPRING), 5);
    met.meets(&world, Call::Spring(1, 256), 5);
    // There is no such part.
    met.meets(&world, Call::PartDelete(1, 2), 4);
    met.meets(&world, Call::PartCut(1, 2), 4);
    met.meets(&world, Call::PartCut(1, u32::MAX), 4);
    for coupling in [
        NewCoupling { link1: 4, ..COUPLING },
        NewCoupling {
            link2: 256 + 1,
            ..COUPLING
        },
    ] {
        met.meets(&world, Call::AddCoupling(coupling), 4);
    }
    for coupling in [
        NewCoupling { axis1: 3, ..COUPLING },
        NewCoupling { axis2: 256, ..COUPLING },
    ] {
        met.meets(&world, Call::AddCoupling(coupling), 5);
    }
}

fn additions(met: &mut Met) {
    let world = world();
    let link = NewLink::fixed(14, 2);
    met.meets(&world, Call::AddLink(NewLink { tag: 11, ..link }), 3);
    for masks in [
        NewLink { locked: 8, ..link },
        NewLink { limit: 256, ..link },
        NewLink {
            motor: u32::MAX,
            ..link
        },
    ] {
        met.meets(&world, Call::AddLink(masks), 5);
    }
    met.meets(&World::new(), Call::AddLink(NewLink::fixed(1, 1)), 4);
    met.meets(&World::new(), Call::AddLink(NewLink::hinged(1, 0)), 5);
    for frames in [NewLink { frame1: TWICE, ..link }, NewLink { frame2: TWICE, ..link }] {
        met.meets(&world, Call::AddLink(frames), 8);
    }
    let mut full = world.clone();
    (20..32).for_each(|tag| full.done(Call::AddLink(NewLink::fixed(tag, 0))));
    met.meets(&full, Call::AddLink(NewLink::fixed(32, 0)), 2);
    let mut coupled = world.clone();
    (1..COUPLINGS).for_each(|_| coupled.done(Call::AddCoupling(COUPLING)));
    met.meets(&coupled, Call::AddCoupling(COUPLING), 2);
    // An empty arm has no root.
    met.meets(&World::new(), Call::FreeRoot(Pose::IDENTITY), 4);
    met.meets(&World::new(), Call::FixRoot(Pose::IDENTITY), 4);
}

fn floats(met: &mut Met) {
    for x in [f32::NAN, f32::INFINITY, f32::NEG_INFINITY] {
        let world = world();
        let pose = Pose::at(x, 0.0);
        let limits = |limits: Limits| Call::LimitRow(2, 1, limits);
        for call in [
            Call::WriteVelocity(2, 1, x),
            Call::WriteDamping(2, 1, x),
            Call::WriteArmature(2, 1, x),
            Call::WriteFriction(2, 1, x),
            Call::WriteAcceleration(2, 1, x),
            Call::SetSpring(1, 0, Spring { stiffness: x, ..SPRING }),
            Call::SetSpring(1, 0, Spring { rest: x, ..SPRING }),
            Call::MoveCoordinate(2, 0, x),
            Call::MoveCoordinate(2, 2, x),
            Call::MoveFrames(1, pose, Pose::IDENTITY),
            Call::MoveFrames(1, Pose::IDENTITY, pose),
            Call::MoveCentre(1, pose.translation()),
            Call::Step(x),
            Call::FreeRoot(pose),
            Call::FixRoot(pose),
            Call::AddLink(NewLink {
                frame1: pose,
                ..NewLink::fixed(14, 2)
            }),
            Call::AddLink(NewLink {
                frame2: pose,
                ..NewLink::fixed(14, 2)
            }),
            Call::AddLink(NewLink {
                centre: pose.translation(),
                ..NewLink::fixed(14, 2)
            }),
            Call::AddCoupling(NewCoupling {
                coefficient: x,
                ..COUPLING
            }),
            Call::AddCoupling(NewCoupling { offset: x, ..COUPLING }),
            limits(Limits { position: x, ..LIMITS }),
            limits(Limits { min: x, ..LIMITS }),
            limits(Limits { max: x, ..LIMITS }),
            limits(Limits { dt: x, ..LIMITS }),
            limits(Limits {
                erp_inv_dt: x,
                ..LIMITS
            }),
            limits(Limits { cfm_coeff: x, ..LIMITS }),
            Call::FrictionRow(2, 1, x, 0.5),
            Call::FrictionRow(2, 1, 0.1, x),
            Call::FillJacobians(2, Force { x, ..FORCE }),
            Call::FillJacobians(2, Force { y: x, ..FORCE }),
            Call::FillJacobians(2, Force { torque: x, ..FORCE }),
        ] {
            met.meets(&world, call, 7);
        }
        let mut lent = world.clone();
        lent.mass.lent()[15] = x;
        lent.accelerations.lent()[2] = x;
        for call in [
            Call::LimitRow(2, 1, LIMITS),
            Call::FrictionRow(2, 1, 0.1, 0.5),
            Call::FillJacobians(2, FORCE),
            Call::Solve(4),
            Call::MulCoordinates(2),
        ] {
            met.meets(&lent, call, 7);
        }
        // Of the tables only the parent's block is read, or the asked link's.
        let mut block = world.clone();
        block.tables.lent()[BLOCK] = x;
        for (call, number) in [
            (Call::MoveCentre(2, ORIGIN), 7),
            (Call::MoveCentre(1, ORIGIN), 0),
            (Call::AddLink(NewLink::fixed(14, 1)), 7),
            (Call::AddLink(NewLink::fixed(14, 2)), 0),
            (Call::FillJacobians(1, FORCE), 7),
            (Call::FillJacobians(2, FORCE), 0),
        ] {
            met.meets(&block, call, number);
        }
    }
}

fn rotations_and_angles(met: &mut Met) {
    let world = world();
    let next = f32::from_bits(256f32.to_bits() + 1);
    for call in [
        Call::MoveFrames(1, TWICE, Pose::IDENTITY),
        Call::MoveFrames(1, Pose::IDENTITY, TWICE),
        Call::FreeRoot(TWICE),
        Call::FixRoot(TWICE),
    ] {
        met.meets(&world, call, 8);
    }
    met.meets(&world, Call::MoveCoordinate(1, 2, next), 9);
    met.meets(&world, Call::MoveCoordinate(1, 2, -next), 9);
    met.meets(&world, Call::MoveCoordinate(1, 2, 256.0), 0);
    met.meets(&world, Call::MoveCoordinate(2, 0, next), 0);
    let mut turning = world.clone();
    turning.done(Call::WriteVelocity(1, 2, 300.0));
    met.meets(&turning, Call::Step(1.0), 9);
}

fn bounds_and_solves(met: &mut Met) {
    let mut world = world();
    met.meets(&world, Call::LimitRow(2, 1, Limits { min: 1.5, ..LIMITS }), 10);
    world.done(Call::WriteFriction(2, 1, 1.0));
    met.meets(&world, Call::FrictionRow(2, 1, -0.1, 0.5), 10);
    let rows = [
        Call::LimitRow(2, 1, LIMITS),
        Call::FrictionRow(2, 1, 0.1, 0.5),
        Call::FillJacobians(2, FORCE),
        Call::Solve(4),
    ];
    let mut singular = world.clone();
    singular.mass.lent()[15] = 0.0;
    let mut small = world.clone();
    (0..4).for_each(|i| small.mass.lent()[5 * i] = 1e-40);
    small.j.lent()[0] = 1.0;
    for call in rows {
        met.meets(&singular, call, 11);
        met.meets(&small, call, 12);
    }
    world.mass = Memory::new(vec![0.0; 49 * 49]);
    met.meets(&world, Call::Solve(49), 2);
    met.meets(&world, Call::Solve(usize::MAX), 1);
}

fn results(met: &mut Met) {
    let far = Pose::at(HUGE, 0.0);
    let mut world = world();
    world.done(Call::MoveFrames(1, far, Pose::IDENTITY));
    for call in [
        Call::AddLink(NewLink {
            frame1: far,
            ..NewLink::fixed(14, 1)
        }),
        Call::MoveCoordinate(2, 0, HUGE),
        Call::MoveFrames(2, far, Pose::IDENTITY),
        Call::MoveCentre(1, far.translation()),
        Call::FreeRoot(far),
        Call::FixRoot(far),
    ] {
        met.meets(&world, call, 12);
    }
    let mut moving = world.clone();
    moving.done(Call::WriteVelocity(2, 0, HUGE));
    met.meets(&moving, Call::Step(10.0), 12);
    // Inputs that were never worked out: a second joint as far again.
    let mut unworked = world.clone();
    unworked.arm.links[2].joint.frame1 = far;
    met.meets(&unworked, Call::FullWorking, 12);
    met.meets(&unworked, Call::PartDelete(3, 0), 12);
    met.meets(&unworked, Call::PartCut(3, 0), 12);
}

/// With the tests above, every refusal that a call can give has been given by it.
#[test]
fn every_refusal_of_every_call_is_met() {
    let mut met = Met::default();
    broken_arms(&mut met);
    short_memory(&mut met);
    links_and_axes(&mut met);
    additions(&mut met);
    floats(&mut met);
    rotations_and_angles(&mut met);
    bounds_and_solves(&mut met);
    results(&mut met);
    for call in good() {
        for number in call.refusals() {
            assert!(
                met.0.contains(&(call.name(), *number)),
                "{number} of {call:?} was not met"
            );
        }
    }
}

// ---- A refused part

/// Arms and tables that refuse a part of them, each with its number, the link that is taken out and the part that is asked for.
fn refused_parts() -> Vec<(u8, World, [u32; 2])> {
    let broken = BROKEN.map(|(number, damage)| {
        let mut world = world();
        damage(&mut world.arm);
        (number, world, [1, 1])
    });
    let mut short = world();
    short.tables = Memory::new([1.0; TABLES - 1]);
    let mut far = world();
    (1..3).for_each(|link| far.arm.links[link].joint.frame1 = Pose::at(HUGE, 0.0));
    let others = [
        (1, short, [1, 1]),
        (4, world(), [4, 0]),
        (4, world(), [1, 2]),
        (12, far, [3, 0]),
    ];
    broken.into_iter().chain(others).collect()
}

/// By whichever number, it is the empty arm, and the lent tables are as they were, a NaN of any bits too.
#[test]
fn a_refused_part_is_the_empty_arm() {
    let mut met = BTreeSet::new();
    for (number, mut world, [link, part]) in refused_parts() {
        world.tables.lent()[7] = f32::from_bits(0xFFA5_A5A5);
        for call in [Call::PartDelete(link, part), Call::PartCut(link, part)] {
            let mut after = world.clone();
            let came = call.make(&mut after);
            assert_eq!(came.refusal, number, "{call:?}");
            assert_eq!(
                came.arm.map(|arm| bits(&arm)),
                Some(bits(&empty_arm())),
                "{number} of {call:?}"
            );
            assert!(after.tables.same_past(&world.tables, 0), "{number} of {call:?}");
        }
        met.insert(number);
    }
    assert!(met.iter().eq(Call::PartDelete(0, 0).refusals()));
    assert_eq!([empty_arm().link_count, empty_arm().coupling_count], [0, 0]);
}

// ---- Which NaN: no proof speaks of a NaN's bits

/// Of both signs, quiet and signalling.
const NANS: [u32; 4] = [0x7F80_0001, 0x7FC0_0000, 0xFFA5_A5A5, 0xFFFF_FFFF];

#[test]
fn a_refusal_leaves_every_nan_its_bits() {
    for nan in NANS.map(f32::from_bits) {
        let mut world = world();
        world.arm.links[1].world.x = nan;
        let World {
            tables,
            mass,
            j,
            wj,
            velocities,
            accelerations,
            ..
        } = &mut world;
        for memory in [tables, mass, j, wj, velocities, accelerations] {
            memory.lent().fill(nan);
        }
        for call in good().into_iter().filter(|call| !matches!(call, Call::Empty)) {
            assert_eq!(answer(&world, call), 7, "{call:?}");
        }
    }
}

/// A call that is done leaves them where it has no need to write: past the counts, in blocks of links that it doesn't reach, and past the tables.
#[test]
fn a_call_that_is_done_leaves_nans_their_bits_too() {
    for nan in NANS.map(f32::from_bits) {
        let mut world = world();
        world.arm.links[LINKS - 1].centre.x = nan;
        world.arm.couplings[COUPLINGS - 1].offset = nan;
        world.arm.rows[0].entries[DOFS - 1] = nan;
        let lent = world.tables.lent().to_vec();
        world.tables = Memory::new(lent.into_iter().chain([nan]));
        for call in good() {
            assert_eq!(answer(&world, call), 0, "{call:?}");
        }
        // Link 3 is below neither.
        world.tables.lent()[3 * BLOCK] = nan;
        for call in [
            Call::WriteVelocity(2, 1, 1.0),
            Call::SetSpring(3, 0, SPRING),
            Call::AddCoupling(COUPLING),
            Call::MoveCoordinate(2, 0, 1.0),
            Call::MoveFrames(1, Pose::IDENTITY, Pose::IDENTITY),
            Call::AddLink(NewLink::fixed(14, 2)),
        ] {
            let mut after = world.clone();
            let arm = call.make(&mut after).arm.expect("an arm");
            let left = [
                arm.links[LINKS - 1].centre.x,
                arm.couplings[COUPLINGS - 1].offset,
                arm.rows[0].entries[DOFS - 1],
                after.tables.lent()[3 * BLOCK],
            ];
            assert_eq!(left.map(f32::to_bits), [nan.to_bits(); 4], "{call:?}");
        }
    }
}

/// Rules 1 to 12, of which several are broken at once: the lowest is given.
#[test]
fn the_lowest_refusal_is_given() {
    let mut world = world();
    let move_far = Call::MoveCoordinate(9, 7, f32::NAN);
    world.tables = Memory::new([f32::NAN; 3]);
    world.arm.links[3].tag = 11;
    world.arm.links[2].joint.coordinates[2] = 300.0;
    assert_eq!(answer(&world, move_far), 1);
    world.tables = Memory::new([f32::NAN; TABLES]);
    world.arm.coupling_count = COUPLINGS + 1;
    assert_eq!(answer(&world, move_far), 2);
    world.arm.coupling_count = 1;
    assert_eq!(answer(&world, move_far), 3);
    world.arm.links[3].tag = 13;
    assert_eq!(answer(&world, move_far), 4);
    assert_eq!(answer(&world, Call::MoveCoordinate(2, 7, f32::NAN)), 5);
    assert_eq!(answer(&world, Call::MoveCoordinate(1, 0, f32::NAN)), 6);
    assert_eq!(answer(&world, Call::MoveCoordinate(2, 0, f32::NAN)), 7);
    world.tables = Memory::new([0.0; TABLES]);
    assert_eq!(answer(&world, Call::MoveFrames(2, TWICE, TWICE)), 8);
    assert_eq!(answer(&world, Call::MoveCoordinate(2, 0, 1.0)), 9);
}
