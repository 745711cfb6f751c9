//! What the boundary adds to a call on an arm of 16 links and 48 DoFs, in ns and as a share of the call. The arm goes in by value, and the answer comes out
//! in its place; the crossing alone is a call that does nothing else.

use crate::arms::{chain, handed_in};
use crate::times::least;
use giellavor::abi::{self, Edited};
use giellavor::ffi::{self, timed};
use giellavor::{LINKS, axis};
use std::hint::black_box;

pub fn time() {
    let made = chain(LINKS).expect("a chain");
    let (arm, mut tables) = made.clone();
    let mut edited = handed_in(&made);
    let [crossing] = least([&mut || {
        black_box(timed::layout_edited(0, black_box(&arm)));
    }]);
    println!();
    println!(
        "{:28} {:>9} {:>17}",
        format!("an arm of {} bytes", size_of::<abi::Arm>()),
        "call",
        "in and out"
    );
    let mut line = |name: &str, call: &mut dyn FnMut(&mut Edited, &mut [f32]) -> u8| {
        let [ns] = least([&mut || {
            black_box(call(black_box(&mut edited), black_box(&mut tables)));
        }]);
        println!("{name:28} {ns:9.0} {crossing:9.0} {:5.1} %", 100.0 * crossing / ns);
    };
    let last = LINKS as u32 - 1;
    line("row write", &mut |edited, _| {
        ffi::write_velocity(edited, last, axis::ANGLE, 0.5)
    });
    for (name, link) in [("move of the last link", last), ("move of the first link", 0)] {
        line(name, &mut |edited, tables| {
            ffi::move_coordinate(edited, tables, link, axis::X, 0.5)
        });
    }
}
