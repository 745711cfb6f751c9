//! Random sequences of calls on the safe type: after each, every pose, shift and block is, bit for bit, what the full working gives; a move touches
//! nothing but the link and those below it; a refused call touches nothing.

use crate::memory::{bits, same};
use crate::size::calls;
use crate::wild;
use generate::Hand;
use giellavor::{Arm, LinkView, RowName, Split};

/// Every float of a link's picture by its bits.
fn picture(link: LinkView) -> Vec<u32> {
    let (pose, from, to) = (link.pose(), link.shift02(), link.shift23());
    let kept = [pose.re, pose.im, pose.x, pose.y, from.x, from.y, to.x, to.y];
    kept.iter().chain(link.block()).map(|x| x.to_bits()).collect()
}

/// Is a link at or below another?
fn is_at_or_below(arm: &Arm, link: u32, top: u32) -> bool {
    arm.kinematic_branch(link).unwrap().contains(&top)
}

/// One call, at random: whether it was done, and the link that it moved.
fn call(hand: &mut Hand, arm: &mut Arm) -> (bool, Option<u32>) {
    let shape = &wild::shape(arm.state());
    let (link, [of, axis]) = (hand.link(shape), hand.free_axis(shape));
    let moved = |done: bool| (done, Some(link));
    let nothing_moved = |done: bool| (done, Some(u32::MAX));
    let all_moved = |done: bool| (done, None);
    match hand.rng.below(20) {
        0..=4 => match arm.add_link(wild::new_link(hand, shape).into()) {
            Ok(number) => (true, Some(number)),
            Err(_) => (false, None),
        },
        5..=8 => (arm.move_coordinate(of, axis, hand.coordinate(axis)).is_ok(), Some(of)),
        9 | 10 => moved(arm.move_frames(link, wild::pose(hand), wild::pose(hand)).is_ok()),
        11 | 12 => moved(arm.move_centre(link, wild::point(hand)).is_ok()),
        13 => {
            let row = hand.rng.pick(&RowName::ALL);
            nothing_moved(arm.write_row(row, of, axis, hand.float()).is_ok())
        }
        14 => nothing_moved(arm.set_spring(link, hand.axis(shape), wild::spring(hand)).is_ok()),
        15 => nothing_moved(arm.add_coupling(wild::coupling(hand, shape).into()).is_ok()),
        16 => all_moved(arm.step(hand.float()).is_ok()),
        17 => all_moved(arm.free_root(wild::pose(hand)).is_ok()),
        18 => all_moved(arm.fix_root(wild::pose(hand)).is_ok()),
        _ => all_moved(part(hand, arm, link)),
    }
}

/// A split: every part is settled, the parts hold the survivors, and one of them is gone on with.
fn part(hand: &mut Hand, arm: &mut Arm, link: u32) -> bool {
    let split = hand.rng.pick(&[Split::delete(link), Split::cut(link)]);
    let Ok((count, places)) = arm.split_map(split) else {
        return false;
    };
    let Ok(mut parts) = arm.parts(split) else { return false };
    assert_eq!(parts.len(), count);
    for (old, place) in arm.links().zip(&places) {
        let Some(place) = place else { continue };
        let new = parts[place.part].link(place.number).unwrap();
        assert_eq!(new.tag(), old.tag());
    }
    assert_eq!(
        parts.iter().map(|part| part.links().len()).sum::<usize>(),
        places.iter().flatten().count()
    );
    assert!(parts.iter().all(Arm::is_settled));
    if hand.rng.one_in(3) && !parts.is_empty() {
        *arm = parts.swap_remove(hand.rng.below(count));
    }
    true
}

#[test]
fn every_sequence_of_calls_keeps_the_picture_fresh() {
    let mut hand = wild::hand(5, 5);
    let mut arm = Arm::new();
    // Each call is worked out in full once more, so that there are fewer.
    let (mut done, calls) = (0, calls() / 10);
    for turn in 0..calls {
        let before = arm.clone();
        let (was_done, moved) = call(&mut hand, &mut arm);
        done += usize::from(was_done);
        assert!(arm.is_settled(), "call {turn}: {arm:?}");
        if !was_done {
            assert_eq!(bits(arm.state()), bits(before.state()));
        }
        // Equal arms have the same tables, and a state taken over is the arm that it was.
        assert!(arm != before || same(arm.tables(), before.tables()), "call {turn}");
        let taken = Arm::from_state(arm.state(), arm.tables()).unwrap();
        assert!(taken == arm && same(taken.tables(), arm.tables()), "call {turn}");
        if let Some(top) = moved {
            for link in before.links().filter(|link| !is_at_or_below(&arm, link.number(), top)) {
                assert_eq!(picture(link), picture(arm.link(link.number()).unwrap()), "call {turn}");
            }
        }
        if turn % 500 == 499 {
            arm = Arm::new();
        }
    }
    assert!(done > calls / 3, "{done} of {calls} done");
}
