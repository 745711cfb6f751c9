//! Every call on an arm with its arguments, made over memory that the test lends.

use crate::memory::{Memory, Place, bits};
use giellavor::abi::{Arm, Edited, Force, Limits, NewCoupling, NewLink, Point, Pose, Spring};
use giellavor::{LINKS, TABLES, ffi};
use std::hint::black_box;

#[derive(Clone, Copy, Debug)]
pub enum Call {
    Empty,
    AddLink(NewLink),
    AddCoupling(NewCoupling),
    WriteVelocity(u32, u32, f32),
    WriteDamping(u32, u32, f32),
    WriteArmature(u32, u32, f32),
    WriteFriction(u32, u32, f32),
    WriteAcceleration(u32, u32, f32),
    SetSpring(u32, u32, Spring),
    MoveCoordinate(u32, u32, f32),
    MoveFrames(u32, Pose, Pose),
    MoveCentre(u32, Point),
    FullWorking,
    Step(f32),
    FreeRoot(Pose),
    FixRoot(Pose),
    PartDelete(u32, u32),
    PartCut(u32, u32),
    LinkStart(u32),
    ArmDofs,
    Spring(u32, u32),
    MulCoordinates(u32),
    Branch(u32),
    SplitDelete(u32),
    SplitCut(u32),
    ViewVelocities(u32),
    ViewAccelerations(u32),
    LimitRow(u32, u32, Limits),
    FrictionRow(u32, u32, f32, f32),
    FillJacobians(u32, Force),
    Solve(usize),
}

/// An arm, and what is lent with it.
#[derive(Clone)]
pub struct World {
    pub arm: Box<Arm>,
    pub tables: Memory<f32>,
    pub bytes: Memory<u8>,
    pub mass: Memory<f32>,
    pub j: Memory<f32>,
    pub wj: Memory<f32>,
    pub velocities: Memory<f32>,
    pub accelerations: Memory<f32>,
}

/// What came of a call: a refusal or 0, the arm that it gives, and how many items of each lent memory it may have written.
pub struct Came {
    pub refusal: u8,
    pub arm: Option<Box<Arm>>,
    tables: usize,
    bytes: usize,
    rows: usize,
}

impl Came {
    fn number(refusal: u8) -> Came {
        Came {
            refusal,
            arm: None,
            tables: 0,
            bytes: 0,
            rows: 0,
        }
    }

    fn edited(edited: Edited, tables: usize) -> Came {
        Came {
            arm: Some(Box::new(edited.arm)),
            tables,
            ..Came::number(edited.refusal)
        }
    }
}

/// A call that edits an arm in its place.
fn edited(arm: &Arm, tables: usize, call: impl FnOnce(&mut Edited) -> u8) -> Came {
    let mut place = Place::of(arm);
    let refusal = call(&mut place.edited);
    assert_eq!(refusal, place.edited.refusal);
    assert!(black_box(&place).is_guarded());
    Came::edited(place.edited, tables)
}

pub fn empty_arm() -> Box<Arm> {
    Box::new(ffi::empty(&mut [0.0; TABLES]).arm)
}

impl World {
    /// An empty arm, tables as long as needed, and some room beside.
    pub fn new() -> World {
        let zeros = |n| Memory::new(vec![0.0; n]);
        let mut tables = zeros(TABLES);
        let arm = Box::new(ffi::empty(tables.lent()).arm);
        World {
            arm,
            tables,
            bytes: Memory::new([0; 2 * LINKS]),
            mass: zeros(TABLES),
            j: zeros(50),
            wj: zeros(50),
            velocities: zeros(50),
            accelerations: zeros(50),
        }
    }

    /// Makes a call that must not be refused, and keeps its arm.
    pub fn done(&mut self, call: Call) {
        let came = call.make(self);
        assert_eq!(came.refusal, 0, "{call:?}");
        if let Some(arm) = came.arm {
            self.arm = arm;
        }
    }

    /// The DoF count, of a broken arm too.
    pub fn dofs(&self) -> usize {
        let links = self.arm.links.iter().take(self.arm.link_count);
        links.map(|link| (!link.joint.locked & 7).count_ones() as usize).sum()
    }

    /// Holds what a call left against what was before it: a refusal changes nothing, and nothing is written past what is needed.
    pub fn check(&self, before: &World, came: &Came, call: Call) {
        let done = came.refusal == 0;
        let room = |n: usize| if done { n } else { 0 };
        assert!(
            self.tables.same_past(&before.tables, room(came.tables)),
            "tables: {call:?}"
        );
        assert!(self.bytes.same_past(&before.bytes, room(came.bytes)), "bytes: {call:?}");
        assert!(self.j.same_past(&before.j, room(came.rows)), "j: {call:?}");
        assert!(self.wj.same_past(&before.wj, room(came.rows)), "wj: {call:?}");
        for (read, before) in [
            (&self.mass, &before.mass),
            (&self.velocities, &before.velocities),
            (&self.accelerations, &before.accelerations),
        ] {
            assert!(read.same_past(before, 0), "what is read: {call:?}");
        }
        if let (Some(arm), false) = (&came.arm, done) {
            let left = match call {
                // No arm came that would be the answer's own.
                Call::Empty | Call::PartDelete(..) | Call::PartCut(..) => &empty_arm(),
                _ => &before.arm,
            };
            assert_eq!(bits(arm), bits(left), "{call:?}");
        }
        assert!(
            done || call.refusals().contains(&came.refusal),
            "{} of {call:?}",
            came.refusal
        );
    }
}

impl Call {
    /// How many kinds there are.
    pub const COUNT: usize = 31;

    pub fn name(self) -> String {
        let text = format!("{self:?}");
        text.split(|c: char| !c.is_alphanumeric())
            .next()
            .unwrap_or_default()
            .to_string()
    }

    /// Every refusal that the call can give.
    pub fn refusals(self) -> &'static [u8] {
        use Call::*;
        match self {
            Empty => &[1],
            AddLink(..) | MoveFrames(..) | FreeRoot(..) | FixRoot(..) => &[1, 2, 3, 4, 5, 7, 8, 9, 12],
            MoveCoordinate(..) => &[1, 2, 3, 4, 5, 6, 7, 9, 12],
            MoveCentre(..) | FullWorking | Step(..) | PartDelete(..) | PartCut(..) => &[1, 2, 3, 4, 5, 7, 9, 12],
            WriteVelocity(..) | WriteDamping(..) | WriteArmature(..) | WriteFriction(..) | WriteAcceleration(..) => {
                &[2, 3, 4, 5, 6, 7, 9]
            }
            AddCoupling(..) | SetSpring(..) | LinkStart(..) | ArmDofs | Spring(..) => &[2, 3, 4, 5, 7, 9],
            MulCoordinates(..) | Branch(..) | SplitDelete(..) | SplitCut(..) => &[1, 2, 3, 4, 5, 7, 9],
            ViewVelocities(..) | ViewAccelerations(..) => &[1, 2, 3, 4, 5, 7, 9],
            LimitRow(..) | FrictionRow(..) => &[1, 2, 3, 4, 5, 6, 7, 9, 10, 11, 12],
            FillJacobians(..) => &[1, 2, 3, 4, 5, 7, 9, 11, 12],
            Solve(..) => &[1, 2, 7, 11, 12],
        }
    }

    pub fn make(self, world: &mut World) -> Came {
        let n = world.dofs();
        let World {
            arm,
            tables,
            bytes,
            mass,
            j,
            wj,
            velocities,
            accelerations,
        } = world;
        let (tables, bytes, mass, j, wj) = (tables.lent(), bytes.lent(), mass.lent(), j.lent(), wj.lent());
        let (velocities, accelerations) = (velocities.lent(), accelerations.lent());
        let listed = |refusal: u8, bytes: usize| Came {
            bytes,
            ..Came::number(refusal)
        };
        let rowed = |refusal: u8| Came {
            rows: n,
            ..Came::number(refusal)
        };
        match self {
            Call::Empty => Came::edited(ffi::empty(tables), TABLES),
            Call::AddLink(link) => edited(arm, TABLES, |e| ffi::add_link(e, tables, link)),
            Call::AddCoupling(coupling) => edited(arm, 0, |e| ffi::add_coupling(e, coupling)),
            Call::WriteVelocity(link, axis, x) => edited(arm, 0, |e| ffi::write_velocity(e, link, axis, x)),
            Call::WriteDamping(link, axis, x) => edited(arm, 0, |e| ffi::write_damping(e, link, axis, x)),
            Call::WriteArmature(link, axis, x) => edited(arm, 0, |e| ffi::write_armature(e, link, axis, x)),
            Call::WriteFriction(link, axis, x) => edited(arm, 0, |e| ffi::write_friction(e, link, axis, x)),
            Call::WriteAcceleration(link, axis, x) => edited(arm, 0, |e| ffi::write_acceleration(e, link, axis, x)),
            Call::SetSpring(link, axis, spring) => edited(arm, 0, |e| ffi::set_spring(e, link, axis, spring)),
            Call::MoveCoordinate(link, axis, x) => {
                edited(arm, TABLES, |e| ffi::move_coordinate(e, tables, link, axis, x))
            }
            Call::MoveFrames(link, a, b) => edited(arm, TABLES, |e| ffi::move_frames(e, tables, link, a, b)),
            Call::MoveCentre(link, centre) => edited(arm, TABLES, |e| ffi::move_centre(e, tables, link, centre)),
            Call::FullWorking => edited(arm, TABLES, |e| ffi::full_working(e, tables)),
            Call::Step(dt) => edited(arm, TABLES, |e| ffi::step(e, tables, dt)),
            Call::FreeRoot(pose) => edited(arm, TABLES, |e| ffi::free_root(e, tables, pose)),
            Call::FixRoot(pose) => edited(arm, TABLES, |e| ffi::fix_root(e, tables, pose)),
            Call::PartDelete(link, number) => Came::edited(ffi::part_delete(arm, link, number, tables), TABLES),
            Call::PartCut(link, number) => Came::edited(ffi::part_cut(arm, link, number, tables), TABLES),
            Call::LinkStart(link) => Came::number(ffi::link_start(arm, link).refusal),
            Call::ArmDofs => Came::number(ffi::arm_dofs(arm).refusal),
            Call::Spring(link, axis) => Came::number(ffi::spring(arm, link, axis).refusal),
            Call::MulCoordinates(link) => Came::number(ffi::jacobian_mul_coordinates(arm, link, accelerations).refusal),
            Call::Branch(link) => {
                let answer = ffi::kinematic_branch(arm, link, bytes);
                listed(answer.refusal, answer.count)
            }
            Call::SplitDelete(link) => listed(
                ffi::arm_split_delete(arm, link, bytes).refusal,
                2 * arm.link_count.min(LINKS),
            ),
            Call::SplitCut(link) => listed(
                ffi::arm_split_cut(arm, link, bytes).refusal,
                2 * arm.link_count.min(LINKS),
            ),
            Call::ViewVelocities(link) => {
                let part = ffi::view_velocities(arm, link, velocities, accelerations);
                assert!(part.refusal != 0 || part.offset + part.length <= velocities.len());
                Came::number(part.refusal)
            }
            Call::ViewAccelerations(link) => {
                let part = ffi::view_accelerations(arm, link, velocities, accelerations);
                assert!(part.refusal != 0 || part.offset + part.length <= accelerations.len());
                Came::number(part.refusal)
            }
            Call::LimitRow(link, axis, limits) => rowed(ffi::limit_row(arm, link, axis, limits, mass, j, wj).refusal),
            Call::FrictionRow(link, axis, dt, cfm) => {
                rowed(ffi::friction_row(arm, link, axis, dt, cfm, mass, j, wj).refusal)
            }
            Call::FillJacobians(link, force) => {
                rowed(ffi::fill_jacobians(arm, link, force, tables, mass, j, wj).refusal)
            }
            Call::Solve(n) => {
                let solved = ffi::solve(n, mass, j, wj);
                assert_eq!(solved.count, if solved.refusal == 0 { n } else { 0 });
                Came {
                    rows: n,
                    ..Came::number(solved.refusal)
                }
            }
        }
    }
}
