//! What a script tells: how its author goes on.

use super::author::Author;
use super::coverage::Coverage;
use crate::hand::Nature;

const STEADY: Nature = Nature {
    fault: 3,
    tiny: 5,
    ..Nature::CALM
};
const CARELESS: Nature = Nature {
    fault: 40,
    huge: 5,
    tiny: 10,
    ..Nature::CALM
};
const LARGE: Nature = Nature {
    fault: 4,
    huge: 60,
    tiny: 30,
    ..Nature::CALM
};
const WILD: Nature = Nature {
    fault: 250,
    huge: 100,
    tiny: 50,
    ..Nature::CALM
};

/// A script and the answers that it should get.
pub struct Script {
    pub text: Vec<u8>,
    pub answers: Vec<u8>,
    pub coverage: Coverage,
}

/// The `index`-th script of a seed. It begins with `new`, so scripts can be played one after another. A sound one hands in no broken arm and no short
/// memory.
pub fn script(seed: u64, index: u64, sound: bool) -> Script {
    let mut author = Author::new(seed, index, sound);
    author.say("new");
    match author.hand.rng.weighted(&[34, 14, 10, 10, 16, 6, 6, 4]) {
        0 => live(&mut author, STEADY, 60, 140),
        1 => live(&mut author, CARELESS, 60, 110),
        2 => live(&mut author, LARGE, 50, 100),
        3 => live(&mut author, WILD, 50, 100),
        4 => break_arms(&mut author),
        5 => write_texts(&mut author),
        6 => solve(&mut author),
        _ => overflow(&mut author),
    }
    for line in ["dump", "kin", "check"] {
        author.say(line);
    }
    Script {
        text: author.script,
        answers: author.answers,
        coverage: author.coverage,
    }
}

/// Add links until there are some; at times one too many.
fn build(author: &mut Author) {
    let rng = &mut author.hand.rng;
    let count = match rng.below(20) {
        0 => 0,
        1..=8 => rng.between(1, 4),
        9..=15 => rng.between(5, 10),
        16 | 17 => rng.between(11, 15),
        _ => rng.between(16, 18),
    };
    let couplings = rng.pick(&[0, 0, 1, 2, 3, 9]);
    for _ in 0..count {
        author.write_link();
        if author.hand.rng.chance(200) {
            author.write_row();
        }
    }
    for _ in 0..couplings {
        author.write_coupling();
    }
}

/// A sound arm that meets a nature.
fn live(author: &mut Author, nature: Nature, least: usize, most: usize) {
    build(author);
    author.hand.nature = nature;
    for _ in 0..author.hand.rng.between(least, most) {
        author.write_any();
        if author.hand.rng.chance(2) {
            author.write_new();
            build(author);
        }
    }
}

fn break_arms(author: &mut Author) {
    build(author);
    for _ in 0..author.hand.rng.between(6, 14) {
        author.hand.nature = author.hand.rng.pick(&[Nature::CALM, STEADY, CARELESS]);
        author.poke_round();
    }
}

/// Moves, steps and splits of an arm whose links stand so far out that one more sum may overflow.
fn overflow(author: &mut Author) {
    build(author);
    for _ in 0..author.hand.rng.between(10, 25) {
        author.hand.nature = author.hand.rng.pick(&[Nature::CALM, STEADY, LARGE]);
        author.write_overflow();
        author.write_moving();
        author.write_check();
    }
}

fn write_texts(author: &mut Author) {
    author.hand.nature = STEADY;
    build(author);
    for _ in 0..author.hand.rng.between(40, 100) {
        author.write_text();
        if author.hand.rng.chance(200) {
            author.write_any();
        }
    }
}

fn solve(author: &mut Author) {
    author.hand.nature = author.hand.rng.pick(&[STEADY, CARELESS, LARGE]);
    for _ in 0..author.hand.rng.between(10, 25) {
        let rng = &mut author.hand.rng;
        let n = match rng.below(20) {
            0 => rng.between(13, 48),
            1 | 2 => rng.between(7, 14),
            _ => rng.below(7),
        };
        author.write_mass_of(n);
        author.write_solve();
        if author.hand.rng.chance(300) {
            author.write_solve();
        }
        if author.hand.rng.chance(50) {
            author.write_short();
        }
        if author.hand.rng.chance(50) {
            author.write_short_out();
        }
    }
}
