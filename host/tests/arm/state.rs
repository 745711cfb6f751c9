//! From a state and tables to an arm: what is broken is refused, what is stale is worked out anew.

use crate::given::hinge;
use crate::memory::{bits, same};
use crate::refusals::BROKEN;
use giellavor::{Arm, BLOCK, LINKS, NewCoupling, NewLink, Pose, Refusal, TABLES, Tag, abi, axis};

/// The arm that the ways to break one are for.
fn arm() -> Arm {
    let mut arm = hinge();
    arm.add_link(NewLink::free(12, 1)).unwrap();
    arm.add_link(NewLink::fixed(13, 0)).unwrap();
    arm.add_coupling(NewCoupling::between(1, 2, 2, 2)).unwrap();
    arm.move_coordinate(1, axis::ANGLE, 0.5).unwrap();
    arm
}

fn number(made: Result<Arm, Refusal>) -> u8 {
    made.err().map_or(0, Refusal::number)
}

#[test]
fn a_state_is_taken_over_bit_for_bit() {
    let empty = Arm::new();
    for arm in [arm(), empty] {
        let taken = Arm::from_state(arm.state(), arm.tables()).unwrap();
        assert_eq!(bits(taken.state()), bits(arm.state()));
        assert!(taken == arm && taken.is_settled() && same(taken.tables(), arm.tables()));
    }
}

#[test]
fn a_broken_state_is_refused_by_its_number() {
    for (broken_by, damage) in BROKEN {
        let arm = arm();
        let mut state = *arm.state();
        damage(&mut state);
        let before = bits(&state);
        assert_eq!(number(Arm::from_state(&state, arm.tables())), broken_by);
        // The lowest is given: these tables are too short.
        assert_eq!(number(Arm::from_state(&state, &arm.tables()[1..])), 1);
        assert!(!state.is_settled(arm.tables()));
        assert_eq!(bits(&state), before);
    }
}

#[test]
fn tables_that_are_too_short_are_refused() {
    let arm = arm();
    for length in [0, 1, BLOCK, TABLES - 1] {
        let short = &arm.tables()[..length];
        assert_eq!(Arm::from_state(arm.state(), short).err(), Some(Refusal::ShortMemory));
        assert!(!arm.state().is_settled(short));
    }
}

/// Floats past the tables are no part of the arm.
#[test]
fn tables_that_are_longer_are_taken_up_to_their_length() {
    let arm = arm();
    let mut longer = arm.tables().to_vec();
    longer.extend([f32::NAN; 16]);
    assert!(arm.state().is_settled(&longer));
    let taken = Arm::from_state(arm.state(), &longer).unwrap();
    assert_eq!(taken.tables().len(), TABLES);
    assert!(taken == arm && taken.is_settled());
}

#[test]
fn what_is_stale_is_worked_out_anew() {
    let arm = arm();
    let stale: [fn(&mut abi::Arm); 4] = [
        |state| state.links[2].world.x = 9.0,
        |state| state.links[2].shift02.y = 9.0,
        |state| state.links[3].shift23.x = -0.0,
        |state| state.links[0].world.im = -0.0,
    ];
    for change in stale {
        let mut state = *arm.state();
        change(&mut state);
        assert!(!state.is_settled(arm.tables()));
        assert_eq!(Arm::from_state(&state, arm.tables()).as_ref(), Ok(&arm));
    }
    for at in [0, BLOCK + 1, TABLES - 1] {
        let mut tables = arm.tables().to_vec();
        tables[at] = f32::NAN;
        assert!(!arm.state().is_settled(&tables));
        let taken = Arm::from_state(arm.state(), &tables).unwrap();
        assert!(taken == arm && same(taken.tables(), arm.tables()));
    }
}

/// An input that was changed past the library: the links below follow.
#[test]
fn a_changed_input_moves_what_is_below() {
    let arm = arm();
    let mut state = *arm.state();
    state.links[1].joint.frame1 = Pose::at(2.0, 0.0);
    assert!(!state.is_settled(arm.tables()));
    let mut moved = arm.clone();
    moved.move_frames(Tag(11), Pose::at(2.0, 0.0), Pose::IDENTITY).unwrap();
    assert_eq!(Arm::from_state(&state, arm.tables()), Ok(moved));
}

#[test]
fn results_that_are_not_finite_are_refused() {
    let arm = arm();
    let mut state = *arm.state();
    state.links[1].joint.frame1.x = 3e38;
    state.links[2].joint.frame1.x = 3e38;
    assert_eq!(Arm::from_state(&state, arm.tables()), Err(Refusal::ResultNotFinite));
}

#[test]
fn an_arm_that_was_taken_over_goes_on() {
    let mut arm = arm();
    let mut taken = Arm::from_state(arm.state(), &[7.0; TABLES]).unwrap();
    for arm in [&mut arm, &mut taken] {
        arm.move_coordinate(Tag(12), axis::X, 0.25).unwrap();
        (4..LINKS as u32).for_each(|place| {
            arm.add_link(NewLink::hinged(100 + place, Tag(12))).unwrap();
        });
        arm.step(0.1).unwrap();
        arm.free_root(Pose::at(0.5, 0.5)).unwrap();
        assert!(arm.is_settled());
    }
    assert!(taken == arm && same(taken.tables(), arm.tables()));
}
