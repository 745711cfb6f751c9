//! Wild calls, many of them: any float bits, any numbers, arms that are broken, memory of any length with guards around it. No call panics or writes
//! where it must not; a refused one changes nothing; an arm that comes back is one that the library takes.

use crate::calls::{Call, World};
use crate::size::calls;
use crate::wild;
use giellavor::ffi;
use std::collections::{BTreeMap, HashMap};
use std::mem::discriminant;

const LONG: usize = 50_000;

#[test]
fn wild_calls() {
    let mut hand = wild::hand(11, 0);
    let mut world = World::new();
    let mut seen = HashMap::new();
    let calls = calls();
    for turn in 0..calls {
        hand.nature = wild::nature([3, 17, 125][turn / 997 % 3]);
        if hand.rng.one_in(4) {
            wild::lend(&mut hand, &mut world);
        }
        let call = wild::call(&mut hand, &world);
        // One arm in 12 is broken for one call.
        let whole = hand.rng.one_in(12).then(|| world.clone());
        if whole.is_some() {
            wild::damage(&mut hand.rng, &mut world);
        }
        let before = world.clone();
        let came = call.make(&mut world);
        world.check(&before, &came, call);
        let (_, times) = seen
            .entry((discriminant(&call), came.refusal))
            .or_insert_with(|| (call.name(), 0usize));
        *times += 1;
        match came.arm {
            Some(arm) if came.refusal == 0 => {
                assert_eq!(ffi::arm_dofs(&arm).refusal, 0, "{call:?}");
                world.arm = arm;
            }
            _ => world = whole.unwrap_or(world),
        }
    }
    let seen: BTreeMap<_, _> = seen
        .into_iter()
        .map(|((_, refusal), (name, times))| ((name, refusal), times))
        .collect();
    print(&seen);
    // In a run that is long enough every call was done at times, and every refusal was met somewhere.
    if calls >= LONG {
        assert_eq!(seen.keys().filter(|(_, refusal)| *refusal == 0).count(), Call::COUNT);
        assert!((1..=12).all(|number| seen.keys().any(|(_, refusal)| *refusal == number)));
    }
}

/// How often each call gave each answer.
fn print(seen: &BTreeMap<(String, u8), usize>) {
    let mut last = "";
    for ((name, refusal), times) in seen {
        if name != last {
            print!("\n{name}:");
            last = name;
        }
        match refusal {
            0 => print!(" done {times}"),
            number => print!(", refused with {number}: {times}"),
        }
    }
    println!();
}
