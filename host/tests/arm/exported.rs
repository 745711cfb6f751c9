//! Every method of the safe type gives what its exported function gives, bit for bit. No two arguments are alike, so that none stands in another's place.

use crate::calls::{Call, World};
use crate::given::{FORCE, LIMITS, SPRING};
use crate::memory::{Memory, bits, same};
use generate::{Rng, masses};
use giellavor::{Arm, DOFS, LINKS, Lent, NewLink, Point, Pose, Refusal, Role, RowName, Split, Spring, abi, axis, ffi};

const FIRST: Pose = Pose {
    re: 0.6,
    im: 0.8,
    x: 0.25,
    y: -0.5,
};
const SECOND: Pose = Pose {
    re: 0.8,
    im: -0.6,
    x: 0.75,
    y: 0.125,
};
const CENTRE: Point = Point { x: 0.375, y: -0.625 };
const LINK: abi::NewLink = abi::NewLink {
    tag: 20,
    parent: 2,
    locked: 1,
    limit: 2,
    motor: 4,
    frame1: FIRST,
    frame2: SECOND,
    centre: CENTRE,
};
const COUPLING: abi::NewCoupling = abi::NewCoupling {
    link1: 1,
    axis1: 2,
    link2: 3,
    axis2: 0,
    coefficient: 0.5,
    offset: -2.0,
};

/// A free root with three links, whose rows and springs hold no float twice.
fn arm() -> Arm {
    let mut arm = Arm::new();
    for (tag, parent) in [(10, 0), (11, 0), (12, 1), (13, 1)] {
        let link = abi::NewLink::free(tag, parent);
        arm.add_link(NewLink {
            frame1: FIRST,
            frame2: SECOND,
            centre: CENTRE,
            ..link.into()
        })
        .unwrap();
    }
    let mut value = 0.0;
    for link in 0..arm.link_count() {
        for axis in [axis::X, axis::Y, axis::ANGLE] {
            for row in RowName::ALL {
                value += 1.0 / 64.0;
                arm.write_row(row, link, axis, value).unwrap();
            }
            arm.set_spring(
                link,
                axis,
                Spring {
                    stiffness: value,
                    rest: -value,
                },
            )
            .unwrap();
        }
    }
    arm
}

type Method = fn(&mut Arm) -> Result<(), Refusal>;

/// Puts an arm in another's place.
fn put(arm: &mut Arm, made: Result<Arm, Refusal>) -> Result<(), Refusal> {
    *arm = made?;
    Ok(())
}

const EDITS: [(Call, Method); 19] = [
    (Call::AddLink(LINK), |arm| {
        let number = arm.add_link(LINK.into())?;
        assert_eq!(number + 1, arm.link_count());
        Ok(())
    }),
    (Call::AddCoupling(COUPLING), |arm| arm.add_coupling(COUPLING.into())),
    (Call::WriteVelocity(2, 1, 9.0), |arm| {
        arm.write_row(RowName::Velocities, 2, 1, 9.0)
    }),
    (Call::WriteDamping(2, 1, 9.0), |arm| {
        arm.write_row(RowName::Damping, 2, 1, 9.0)
    }),
    (Call::WriteArmature(2, 1, 9.0), |arm| {
        arm.write_row(RowName::Armature, 2, 1, 9.0)
    }),
    (Call::WriteFriction(2, 1, 9.0), |arm| {
        arm.write_row(RowName::Frictions, 2, 1, 9.0)
    }),
    (Call::WriteAcceleration(2, 1, 9.0), |arm| {
        arm.write_row(RowName::Accelerations, 2, 1, 9.0)
    }),
    (Call::SetSpring(2, 1, SPRING), |arm| arm.set_spring(2, 1, SPRING)),
    (Call::MoveCoordinate(2, 1, 0.5), |arm| arm.move_coordinate(2, 1, 0.5)),
    (Call::MoveFrames(1, SECOND, FIRST), |arm| {
        arm.move_frames(1, SECOND, FIRST)
    }),
    (Call::MoveCentre(1, Point { x: 2.0, y: 3.0 }), |arm| {
        arm.move_centre(1, Point { x: 2.0, y: 3.0 })
    }),
    (Call::FullWorking, Arm::full_working),
    (Call::Step(0.25), |arm| arm.step(0.25)),
    (Call::FreeRoot(SECOND), |arm| arm.free_root(SECOND)),
    (Call::FixRoot(SECOND), |arm| arm.fix_root(SECOND)),
    (Call::PartDelete(1, 2), |arm| put(arm, arm.part(Split::delete(1), 2))),
    (Call::PartCut(1, 1), |arm| put(arm, arm.part(Split::cut(1), 1))),
    (Call::Empty, |arm| put(arm, Ok(Arm::new()))),
    // Refused.
    (Call::MoveCoordinate(4, 3, f32::NAN), |arm| {
        arm.move_coordinate(4, 3, f32::NAN)
    }),
];

#[test]
fn every_edit_is_the_call() {
    for (call, method) in EDITS {
        let mut arm = arm();
        let mut world = World {
            arm: Box::new(*arm.state()),
            tables: Memory::new(arm.tables().iter().copied()),
            ..World::new()
        };
        let came = call.make(&mut world);
        assert_eq!(
            method(&mut arm).err().map_or(0, Refusal::number),
            came.refusal,
            "{call:?}"
        );
        assert_eq!(came.arm.map(|arm| bits(&arm)), Some(bits(arm.state())), "{call:?}");
        assert!(same(world.tables.lent(), arm.tables()), "{call:?}");
    }
}

#[test]
fn every_part_is_the_call_s() {
    let arm = arm();
    for (split, part) in [
        (
            Split::delete(1),
            ffi::part_delete as fn(&abi::Arm, u32, u32, &mut [f32]) -> abi::Edited,
        ),
        (Split::cut(1), ffi::part_cut),
    ] {
        let parts = arm.parts(split).unwrap();
        for (number, made) in (0..).zip(&parts) {
            let mut tables = arm.tables().to_vec();
            let edited = part(arm.state(), 1, number, &mut tables);
            assert_eq!((edited.refusal, bits(&edited.arm)), (0, bits(made.state())));
            assert!(same(&tables, made.tables()));
        }
        // Past the last there is none, and where the method has no arm the call has an empty one.
        let mut tables = arm.tables().to_vec();
        let edited = part(arm.state(), 1, parts.len() as u32, &mut tables);
        assert_eq!(arm.part(split, parts.len()).err(), Refusal::from_number(edited.refusal));
        assert_eq!((edited.refusal, bits(&edited.arm)), (4, bits(Arm::new().state())));
        assert!(same(&tables, arm.tables()));
    }
}

#[test]
fn every_number_that_is_read_is_the_call_s() {
    let arm = arm();
    let state = arm.state();
    for link in 0..5 {
        let told = |refusal: u8| Refusal::from_number(refusal);
        let start = ffi::link_start(state, link);
        assert_eq!(arm.link_start(link), told(start.refusal).map_or(Ok(start.count), Err));
        for axis in 0..4 {
            let spring = ffi::spring(state, link, axis);
            assert_eq!(
                arm.spring(link, axis),
                told(spring.refusal).map_or(Ok(spring.spring), Err)
            );
        }
        let given = [1.0, 2.0, 3.0];
        let axes = ffi::jacobian_mul_coordinates(state, link, &given);
        assert_eq!(
            arm.jacobian_mul_coordinates(link, &given),
            told(axes.refusal).map_or(Ok(axes.axes), Err)
        );
        let mut branch = [0; LINKS];
        let counted = ffi::kinematic_branch(state, link, &mut branch);
        let numbers = branch[..counted.count].iter().copied().map(u32::from).collect();
        assert_eq!(
            arm.kinematic_branch(link),
            told(counted.refusal).map_or(Ok(numbers), Err)
        );
    }
    assert_eq!(arm.dof_count(), ffi::arm_dofs(state).count);
    for (name, row) in RowName::ALL.into_iter().zip(&state.rows) {
        assert_eq!(arm.row(name), &row.entries[..12]);
    }
}

#[test]
fn every_map_is_the_call_s() {
    let arm = arm();
    for (split, call) in [
        (
            Split::delete(1),
            ffi::arm_split_delete as fn(&abi::Arm, u32, &mut [u8]) -> abi::Counted,
        ),
        (Split::cut(1), ffi::arm_split_cut),
    ] {
        let mut map = [0; 8];
        let counted = call(arm.state(), 1, &mut map);
        let places = giellavor::split::places(&map).collect();
        assert_eq!(arm.split_map(split), Ok((counted.count, places)));
    }
}

#[test]
fn every_view_is_of_the_row_that_is_asked_for() {
    let arm = arm();
    let [velocities, accelerations] = [RowName::Velocities, RowName::Accelerations].map(|row| arm.row(row));
    for link in 0..4 {
        let start = arm.link_start(link).unwrap();
        for (role, row) in [(Role::Velocities, velocities), (Role::Accelerations, accelerations)] {
            let view = arm.row_view(role, link, velocities, accelerations);
            assert_eq!(view, Ok(&row[start..start + 3]));
        }
    }
}

/// What is lent for J and WJ, and what was said.
type Filled<T> = (T, Vec<f32>, Vec<f32>);

fn filled<T>(call: impl FnOnce(&[f32], &mut [f32], &mut [f32]) -> T) -> Filled<T> {
    let (mut j, mut wj) = (vec![7.0; DOFS], vec![9.0; DOFS]);
    let mass = masses::dominant(&mut Rng::new(1, 0), 12);
    let said = call(&mass, &mut j, &mut wj);
    (said, j, wj)
}

#[test]
fn every_constraint_row_is_the_call_s() {
    let arm = arm();
    let row = |row: abi::ConstraintRow| {
        assert_eq!(row.refusal, 0);
        [row.lower, row.upper, row.rhs, row.cfm_gain, row.inv_lhs].map(f32::to_bits)
    };
    let told = |row: Result<giellavor::ConstraintRow, Refusal>| {
        let row = row.unwrap();
        [row.lower, row.upper, row.rhs, row.cfm_gain, row.inv_lhs].map(f32::to_bits)
    };
    assert_eq!(
        filled(|mass, j, wj| told(arm.limit_row(2, 1, LIMITS, Lent { mass, j, wj }))),
        filled(|mass, j, wj| row(ffi::limit_row(arm.state(), 2, 1, LIMITS, mass, j, wj)))
    );
    assert_eq!(
        filled(|mass, j, wj| told(arm.friction_row(2, 1, 0.1, 0.5, Lent { mass, j, wj }))),
        filled(|mass, j, wj| row(ffi::friction_row(arm.state(), 2, 1, 0.1, 0.5, mass, j, wj)))
    );
    assert_eq!(
        filled(|mass, j, wj| {
            let sums = arm.fill_jacobians(2, FORCE, Lent { mass, j, wj }).unwrap();
            [sums.j_wj, sums.j_velocities].map(f32::to_bits)
        }),
        filled(|mass, j, wj| {
            let sums = ffi::fill_jacobians(arm.state(), 2, FORCE, arm.tables(), mass, j, wj);
            [sums.j_wj, sums.j_velocities].map(f32::to_bits)
        })
    );
}
