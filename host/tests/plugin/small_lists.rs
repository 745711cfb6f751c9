//! Every list of up to 6 parents, each from 0 to 7, with every link from 0 to 7 deleted and cut, and every mask, against the plain reading.

use giellavor::{Refusal, masks, split};
use plain::split::{Split, split_map};

const UNTOUCHED: u8 = 0xA5;

fn agrees(parents: &[u8], how: Split, link: u32) -> bool {
    let (mut map, mut expected) = ([UNTOUCHED; 14], [UNTOUCHED; 14]);
    let needed = 2 * parents.len();
    let split = match how {
        Split::Delete => split::delete,
        Split::Cut => split::cut,
    };
    let answer = told(split(parents, link, &mut map[..needed]));
    let read = read(split_map(parents, how, link, &mut expected[..needed]));
    answer == read && map == expected && (answer.is_ok() || map == [UNTOUCHED; 14])
}

fn told<T>(answer: Result<T, Refusal>) -> Result<T, u8> {
    answer.map_err(Refusal::number)
}

fn read<T>(answer: plain::Answer<T>) -> Result<T, u8> {
    answer.map_err(plain::Refusal::number)
}

#[test]
fn every_list_of_up_to_6_parents() {
    let mut calls = 0;
    for n in 0..=6u32 {
        for list in 0..8u32.pow(n) {
            let parents: Vec<u8> = (0..n).map(|link| (list >> (3 * link) & 7) as u8).collect();
            for link in 0..8 {
                for how in [Split::Delete, Split::Cut] {
                    assert!(agrees(&parents, how, link), "{how:?} {link} of {parents:?}");
                    calls += 1;
                }
            }
        }
    }
    assert_eq!(calls, 16 * (0..=6).map(|n| 8u32.pow(n)).sum::<u32>());
}

/// What the plain reading says of an axis of a mask, where they are one.
fn of_axis<T>(mask: u32, axis: u32, asked: impl Fn(u8, usize) -> T) -> plain::Answer<T> {
    plain::Refusal::Mask.when(!plain::masks::is_mask(mask) || !plain::masks::is_axis(axis))?;
    Ok(asked(mask as u8, axis as usize))
}

#[test]
fn every_mask() {
    for locked in (0..=8).chain([256, u32::MAX]) {
        let dofs = plain::masks::counts(locked, 0, 0).map(|counts| counts.dofs);
        assert_eq!(told(masks::dof_count(locked)), read(dofs));
        for axis in [0, 1, 2, 3, 256, u32::MAX] {
            let below = of_axis(locked, axis, plain::masks::dofs_below);
            assert_eq!(told(masks::dof_count_below(locked, axis)), read(below));
            let free = of_axis(locked, axis, plain::masks::is_free);
            assert_eq!(told(masks::is_free(locked, axis)), read(free));
        }
        for limit in 0..=8 {
            for motor in 0..=8 {
                let counts = plain::masks::counts(locked, limit, motor);
                assert_eq!(
                    told(masks::num_velocity_constraints(locked, limit, motor)),
                    read(counts.map(|counts| counts.constraints))
                );
            }
        }
    }
}
