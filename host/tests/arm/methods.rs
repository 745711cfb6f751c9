//! Every method of the safe type with any argument: none panics, and what is refused changes nothing.

use crate::memory::{bits, same};
use crate::size::calls;
use crate::wild;
use generate::Hand;
use giellavor::{Arm, Lent, NewCoupling, NewLink, Role, RowName, Split, Tag, Which};

/// Any number of a link or part: a small one mostly.
fn number(hand: &mut Hand) -> u32 {
    hand.rng.number(18)
}

fn axis(hand: &mut Hand) -> u32 {
    hand.rng.number(4)
}

fn mask(hand: &mut Hand) -> u32 {
    hand.rng.number(9)
}

fn tag(hand: &mut Hand) -> Tag {
    Tag(hand.rng.number(40))
}

/// A link by any number, or by any tag.
fn which(hand: &mut Hand) -> Which {
    match hand.rng.below(2) {
        0 => number(hand).into(),
        _ => tag(hand).into(),
    }
}

fn floats(hand: &mut Hand) -> Vec<f32> {
    let length = hand.rng.pick(&[0, 3, 48, 60, 2304]);
    hand.floats(length)
}

fn new_link(hand: &mut Hand) -> NewLink {
    NewLink {
        tag: tag(hand),
        parent: which(hand),
        locked: mask(hand),
        limit: mask(hand),
        motor: mask(hand),
        frame1: wild::pose(hand),
        frame2: wild::pose(hand),
        centre: wild::point(hand),
    }
}

fn coupling(hand: &mut Hand) -> NewCoupling {
    NewCoupling {
        link1: which(hand),
        axis1: axis(hand),
        link2: which(hand),
        axis2: axis(hand),
        coefficient: hand.float(),
        offset: hand.float(),
    }
}

/// One method that may change the arm; says whether it was done.
fn edit(hand: &mut Hand, arm: &mut Arm) -> bool {
    let (link, axis) = (which(hand), axis(hand));
    let row = hand.rng.pick(&RowName::ALL);
    match hand.rng.below(12) {
        0 | 1 => arm.add_link(new_link(hand)).is_ok(),
        2 => arm.add_link(NewLink::free(tag(hand), 0)).is_ok(),
        3 => arm.add_coupling(coupling(hand)).is_ok(),
        4 => arm.write_row(row, link, axis, hand.float()).is_ok(),
        5 => arm.set_spring(link, axis, wild::spring(hand)).is_ok(),
        6 => arm.move_coordinate(link, axis, hand.coordinate(axis)).is_ok(),
        7 => arm.move_frames(link, wild::pose(hand), wild::pose(hand)).is_ok(),
        8 => arm.move_centre(link, wild::point(hand)).is_ok(),
        9 => arm.step(hand.float()).is_ok(),
        10 => arm.free_root(wild::pose(hand)).is_ok(),
        _ => arm.fix_root(wild::pose(hand)).is_ok(),
    }
}

/// One method that reads the arm; says whether it was answered.
fn read(hand: &mut Hand, arm: &Arm) -> bool {
    let (link, axis) = (which(hand), axis(hand));
    let split = hand.rng.pick(&[Split::delete(link), Split::cut(link)]);
    let role = hand.rng.pick(&[Role::Velocities, Role::Accelerations]);
    let row = hand.rng.pick(&RowName::ALL);
    let (mass, mut j, mut wj) = (floats(hand), floats(hand), floats(hand));
    let lent = Lent {
        mass: &mass,
        j: &mut j,
        wj: &mut wj,
    };
    match hand.rng.below(14) {
        0 => arm.split_map(split).is_ok(),
        1 => arm.part(split, number(hand) as usize).is_ok(),
        2 => arm.parts(split).is_ok(),
        3 => arm.link(link).is_ok_and(|link| link.rows().count() == 3),
        4 => arm
            .link(link)
            .is_ok_and(|found| link == found.tag().into() || link == found.number().into()),
        5 => arm.link_start(link).is_ok(),
        6 => arm.row(row).len() == arm.dof_count(),
        7 => arm.row_view(role, link, &mass, &j).is_ok(),
        8 => arm.kinematic_branch(link).is_ok(),
        9 => arm.spring(link, axis).is_ok(),
        10 => arm.jacobian_mul_coordinates(link, &mass).is_ok(),
        11 => arm.limit_row(link, axis, wild::limits(hand), lent).is_ok(),
        12 => arm
            .friction_row(link, axis, hand.float(), hand.cfm_coeff(), lent)
            .is_ok(),
        _ => arm.fill_jacobians(link, wild::force(hand), lent).is_ok(),
    }
}

#[test]
fn no_method_panics() {
    let mut hand = wild::hand(17, 100);
    let mut arm = Arm::new();
    let (mut answered, turns) = (0, calls() / 10);
    for turn in 0..turns {
        answered += usize::from(read(&mut hand, &arm));
        let before = arm.clone();
        let done = edit(&mut hand, &mut arm);
        assert!(done || bits(arm.state()) == bits(before.state()));
        assert!(done || arm == before && same(arm.tables(), before.tables()));
        if turn % 300 == 299 {
            assert!(!format!("{arm:?}").is_empty());
            arm = Arm::default();
        }
    }
    assert!(
        turns / 8 < answered && answered < turns,
        "{answered} of {turns} answered"
    );
}
