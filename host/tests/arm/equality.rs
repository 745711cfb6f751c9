//! Arms are equal where they are up to their counts, bit for bit.

use crate::given::hinge;
use giellavor::abi::{Coupling, Link, Row};
use giellavor::{Arm, NewCoupling, NewLink, Pose, RowName, Tag, abi, axis};

/// A fixed root with a hinged link and a free one below it: four DoFs and a coupling.
fn arm() -> Arm {
    let mut arm = hinge();
    arm.add_link(NewLink::free(12, Tag(11))).unwrap();
    arm.add_coupling(NewCoupling::between(Tag(11), axis::ANGLE, Tag(12), axis::ANGLE))
        .unwrap();
    arm
}

/// The arm with something of its state changed.
fn changed(change: impl FnOnce(&mut abi::Arm)) -> Arm {
    let arm = arm();
    let mut state = *arm.state();
    change(&mut state);
    Arm::from_state(&state, arm.tables()).unwrap()
}

#[test]
fn an_arm_is_equal_to_its_like() {
    assert_eq!(arm(), arm());
    assert_eq!(arm(), arm().clone());
    assert_eq!(Arm::new(), Arm::default());
    assert_ne!(arm(), Arm::new());
}

type Change = fn(&mut abi::Arm);

/// Changes of what stands behind the counts.
const UNCOUNTED: [Change; 4] = [
    |state| {
        let Link { joint, world, .. } = &mut state.links[3];
        (joint.locked, joint.frame1.x, world.x) = (9, f32::NAN, 7.0);
    },
    |state| state.links[15].tag = 10,
    |state| {
        state.couplings[1] = Coupling {
            link1: 200,
            offset: f32::INFINITY,
            ..state.couplings[0]
        }
    },
    |state| state.rows.iter_mut().for_each(|Row { entries }| entries[4..].fill(9.0)),
];

/// Changes of all else.
const COUNTED: [Change; 22] = [
    |state| (state.link_count, state.coupling_count) = (2, 0),
    |state| (state.link_count, state.coupling_count) = (0, 0),
    |state| state.coupling_count = 0,
    |state| state.coupling_count = 2,
    |state| state.links[2].tag = 13,
    |state| state.links[2].parent = 0,
    |state| state.links[2].joint.locked = 1,
    |state| state.links[2].joint.limit = 1,
    |state| state.links[2].joint.motor = 1,
    |state| state.links[2].joint.frame1.x = 0.5,
    |state| state.links[2].joint.frame2.im = -0.0,
    |state| state.links[2].joint.coordinates[0] = -0.0,
    |state| state.links[2].joint.rotation.im = -0.0,
    |state| state.links[2].joint.stiffness[1] = 1e-45,
    |state| state.links[2].joint.rest[2] = 0.5,
    |state| state.links[2].centre.y = 0.5,
    |state| state.couplings[0].link1 = 0,
    |state| state.couplings[0].axis1 = 0,
    |state| state.couplings[0].link2 = 0,
    |state| state.couplings[0].axis2 = 0,
    |state| state.couplings[0].coefficient = -1.0,
    |state| state.couplings[0].offset = -0.0,
];

#[test]
fn what_does_not_count_is_not_compared() {
    for change in UNCOUNTED {
        assert_eq!(changed(change), arm());
    }
    // Nor what lent tables held.
    let taken = Arm::from_state(arm().state(), &[f32::NAN; giellavor::TABLES]);
    assert_eq!(taken.unwrap(), arm());
}

#[test]
fn all_that_counts_is_compared() {
    for (at, change) in COUNTED.into_iter().enumerate() {
        let other = changed(change);
        assert!(other != arm() && other == changed(change), "change {at}");
    }
    // The links alone.
    let without = |links| changed(|state| (state.link_count, state.coupling_count) = (links, 0));
    assert_ne!(without(2), without(3));
    for row in 0..RowName::ALL.len() {
        for dof in 0..4 {
            assert_ne!(changed(|state| state.rows[row].entries[dof] = -0.25), arm());
        }
    }
}

#[test]
fn a_state_by_its_bits_is_all_of_it() {
    let kept: [Change; 3] = [
        |state| state.links[2].world.im = -0.0,
        |state| state.links[2].shift02.x = f32::NAN,
        |state| state.links[15].shift23.y = -0.0,
    ];
    let all = UNCOUNTED.into_iter().chain(COUNTED).chain(kept);
    for (at, change) in all.enumerate() {
        let (before, mut state) = (*arm().state(), *arm().state());
        change(&mut state);
        assert!(
            state.bits().ne(before.bits()) && state.bits().eq(state.bits()),
            "change {at}"
        );
    }
}

#[test]
fn an_arm_that_is_moved_back_is_equal_again() {
    let mut moved = arm();
    moved.fix_root(Pose::at(0.0, 1.0)).unwrap();
    assert_ne!(moved, arm());
    moved.fix_root(Pose::IDENTITY).unwrap();
    assert_eq!(moved, arm());
    moved.move_coordinate(Tag(11), axis::ANGLE, 0.5).unwrap();
    assert_ne!(moved, arm());
}
