//! Random bytes of every length from 0 to 40 as parents and as masks, with any link number, mask and length of output, and guard
//! bytes around the output: nothing panics, nothing past what is needed changes, and the answers are those of the plain reading.

use crate::size::calls;
use generate::Rng;
use giellavor::{Refusal, masks, split, tree};
use plain::split::{Split, split_map};

const GUARD: usize = 16;

/// Any bytes, small ones, or each below its place: the last are parents that fit.
fn any_bytes(rng: &mut Rng, n: usize) -> Vec<u8> {
    let kind = rng.below(4);
    (0..n)
        .map(|place| match kind {
            0 => rng.bits() as u8,
            1 => rng.below(9) as u8,
            2 => rng.below(8) as u8,
            _ => rng.below(place.max(1)) as u8,
        })
        .collect()
}

/// Both sides over the same random bytes between guards, so many of them lent: they answer alike and leave the same, and nothing past what an answer
/// needs has changed. Was it done?
fn agree(
    rng: &mut Rng,
    room: usize,
    needed: impl Fn(usize) -> usize,
    ours: impl Fn(&mut [u8]) -> Result<usize, Refusal>,
    plain: impl Fn(&mut [u8]) -> plain::Answer<usize>,
) -> bool {
    let before = any_bytes(rng, room + 2 * GUARD);
    let (mut memory, mut expected) = (before.clone(), before.clone());
    let answer = ours(&mut memory[GUARD..GUARD + room]).map_err(Refusal::number);
    let told = plain(&mut expected[GUARD..GUARD + room]).map_err(plain::Refusal::number);
    assert_eq!(answer, told);
    assert_eq!(memory, expected);
    let end = GUARD + answer.map_or(0, needed);
    assert_eq!((&memory[..GUARD], &memory[end..]), (&before[..GUARD], &before[end..]));
    answer.is_ok()
}

/// The plain reading's default damping as bytes. Those that are needed are asked for of a number that is no mask too.
fn damping(mask: u32, bytes: &mut [u8]) -> plain::Answer<usize> {
    plain::Refusal::Short.when(bytes.len() < 4 * plain::masks::dofs(mask as u8))?;
    let counts = plain::masks::counts(mask, 0, 0)?;
    for (place, entry) in bytes.chunks_mut(4).zip(counts.damping()) {
        place.copy_from_slice(&entry.to_le_bytes());
    }
    Ok(counts.dofs)
}

#[test]
fn random_bytes_of_every_length() {
    let rng = &mut Rng::new(3, 0);
    let (mut made, mut accepted) = (0, 0);
    for n in 0..=40 {
        for _ in 0..calls() / 200 {
            let bytes = &any_bytes(rng, n);
            let wide: &Vec<u32> = &bytes.iter().copied().map(u32::from).collect();
            let (link, mask) = (rng.number(n + 2), rng.number(9));
            for room in [rng.below(90), 2 * n + rng.below(3)] {
                let small = room % 20;
                let answers = [
                    agree(
                        rng,
                        room,
                        |_| 2 * n,
                        |map| split::delete(bytes, link, map),
                        |map| split_map(bytes, Split::Delete, link, map),
                    ),
                    agree(
                        rng,
                        room,
                        |_| 2 * n,
                        |map| split::cut(bytes, link, map),
                        |map| split_map(bytes, Split::Cut, link, map),
                    ),
                    agree(
                        rng,
                        room,
                        |_| n,
                        |starts| masks::starts(bytes, starts),
                        |starts| plain::masks::starts(wide, starts),
                    ),
                    agree(
                        rng,
                        small,
                        |count| count,
                        |branch| tree::kinematic_branch(bytes, link, branch),
                        |branch| plain::tree::branch(bytes, link, branch),
                    ),
                    agree(
                        rng,
                        small,
                        |dofs| 4 * dofs,
                        |bytes| masks::default_damping(mask, bytes),
                        |bytes| damping(mask, bytes),
                    ),
                ];
                made += answers.len();
                accepted += answers.into_iter().filter(|&done| done).count();
            }
        }
    }
    // Neither always refused nor always accepted.
    assert!(
        made / 20 < accepted && accepted < made / 2,
        "{accepted} of {made} accepted"
    );
}
