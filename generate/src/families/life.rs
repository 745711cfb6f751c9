//! A script from its first link to its last look.

use super::family::Family;
use super::maker::Maker;
use crate::rng::Rng;
use script::limits::LINKS;

/// The script of a number under a seed; its family is drawn unless it is given.
pub fn script(seed: u64, number: u64, family: Option<Family>) -> String {
    let mut rng = Rng::new(seed, number);
    let drawn = Family::ALL[rng.weighted(&[3, 2, 2, 1])];
    let family = family.unwrap_or(drawn);
    let mut maker = Maker::new(rng, family);
    maker.accepted_line(&format!(
        "# script {number} seed {seed}\n# family {}\nnew",
        family.letter()
    ));
    live(&mut maker);
    maker.accepted_line("dump\nkin\ncheck");
    maker.out
}

fn live(maker: &mut Maker) {
    let rng = &mut maker.hand.rng;
    let links = match rng.below(4) {
        0 => rng.between(1, 3),
        1 => LINKS,
        _ => rng.between(1, LINKS),
    };
    let (chain, acts) = (rng.one_in(3), rng.between(20, 79));
    for _ in 0..links {
        maker.add_link(chain);
    }
    for _ in 0..acts {
        act(maker);
    }
}

fn act(maker: &mut Maker) {
    if maker.shape.links.is_empty() {
        return maker.add_link(false);
    }
    match maker.hand.rng.below(64) {
        0..4 => maker.add_link(false),
        4..12 => maker.write_row(),
        12..17 => maker.move_coordinate(),
        17..20 => maker.move_frames(),
        20..23 => maker.move_centre(),
        23..26 => maker.spring(),
        26..30 => maker.couple(),
        30..34 => maker.step(),
        34..37 => maker.change_root(),
        37..39 => maker.full(),
        39..45 => maker.ask(),
        45..48 => maker.split(),
        48..50 => maker.take_part(),
        50..53 => maker.solves(),
        53 => maker.extreme(),
        54..56 => maker.kept_pose(),
        _ if maker.family == Family::Refusals => maker.refusal(),
        _ => maker.write_row(),
    }
}
