//! A call so many times, on one side alone: what `bench/count` counts the instructions of.

use crate::arms::{chain, handed_in, plain_of};
use crate::calls::{Call, by_value};
use giellavor::LINKS;
use std::hint::black_box;

const LAST: u32 = LINKS as u32 - 1;

/// Each counted call, with the links of the chain that it is made on.
const CALLS: [(&str, Call, usize); 7] = [
    ("row-write", Call::WriteVelocity { link: LAST }, LINKS),
    ("addition", Call::AddLink { parent: LAST - 1 }, LINKS - 1),
    ("move-of-the-last", Call::Move { link: LAST }, LINKS),
    ("move-of-link-7", Call::Move { link: LAST / 2 }, LINKS),
    ("move-of-the-first", Call::Move { link: 0 }, LINKS),
    ("full-working", Call::FullWorking, LINKS),
    ("whole-step", Call::Step, LINKS),
];

/// By what the command line says: nothing, for the names of the calls; or a side, a call and how many times.
pub fn run(words: &[String]) {
    let [side, name, times] = words else {
        CALLS.iter().for_each(|(name, ..)| println!("{name}"));
        return;
    };
    let (_, call, links) = CALLS.iter().find(|(known, ..)| known == name).expect("a call's name");
    let times = times.parse().expect("a number");
    let made = chain(*links).expect("a chain");
    let (mut edited, mut tables) = (handed_in(&made), made.1.clone());
    let (mut arm, mut other_tables) = plain_of(&made);
    for _ in 0..times {
        edited.arm.link_count = *links;
        arm.link_count = *links;
        match side.as_str() {
            "ours" => {
                let _ = black_box(black_box(call).ours(black_box(&mut edited), black_box(&mut tables)));
            }
            "by-value" => {
                let _ = black_box(by_value(black_box(&mut arm), black_box(&mut other_tables), *call));
            }
            _ => {
                let _ = black_box(black_box(call).rust(black_box(&mut arm), black_box(&mut other_tables)));
            }
        }
    }
}
