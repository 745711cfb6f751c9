//! A command as the line that is read as it.

use super::word::Spelling;
use script::limits::DOFS;
use script::{Command, NewCoupling, NewLink, Poke, Role, RootType, RowName, Split};

struct Words<'a, S> {
    line: String,
    spelling: &'a mut S,
}

/// The word of a choice.
fn word_of<T: Copy + PartialEq>(words: &[(&'static str, T)], choice: T) -> &'static str {
    let found = words.iter().find(|(_, other)| *other == choice);
    found.expect("every choice has a word").0
}

impl<S: Spelling> Words<'_, S> {
    fn word(&mut self, word: &str) -> &mut Self {
        if !self.line.is_empty() {
            self.line.push(' ');
        }
        self.line += word;
        self
    }

    fn number(&mut self, number: impl TryInto<u32>) -> &mut Self {
        let number = number.try_into().ok().expect("a number of a script");
        let word = self.spelling.number(number);
        self.word(&word)
    }

    fn numbers<T: Copy + TryInto<u32>>(&mut self, numbers: &[T]) -> &mut Self {
        for &number in numbers {
            self.number(number);
        }
        self
    }

    fn floats(&mut self, floats: &[f32]) -> &mut Self {
        for &x in floats {
            let word = self.spelling.float(x);
            self.word(&word);
        }
        self
    }

    fn link(&mut self, new: &NewLink) -> &mut Self {
        self.numbers(&[new.tag, new.parent, new.locked, new.limit, new.motor])
            .floats(&new.frame1)
            .floats(&new.frame2)
            .floats(&new.com)
    }

    fn coupling(&mut self, new: &NewCoupling) -> &mut Self {
        let ([link1, link2], [axis1, axis2]) = (new.links, new.axes);
        self.numbers(&[link1, axis1, link2, axis2])
            .floats(&[new.coeff, new.offset])
    }

    fn poke(&mut self, poke: Poke) -> &mut Self {
        match poke {
            Poke::Links(count) => self.word("links").number(count),
            Poke::Couplings(count) => self.word("couplings").number(count),
            Poke::Tag(link, tag) => self.word("tag").number(link).number(tag),
            Poke::Parent(link, parent) => self.word("parent").number(link).number(parent),
            Poke::Locked(link, mask) => self.word("locked").number(link).number(mask),
            Poke::Limit(link, mask) => self.word("limit").number(link).number(mask),
            Poke::Motor(link, mask) => self.word("motor").number(link).number(mask),
            Poke::Coordinate(link, axis, x) => self.word("coordinate").numbers(&[link, axis]).floats(&[x]),
            Poke::Rotation(link, to) => self.word("rotation").number(link).floats(&to),
            Poke::Pose(link, to) => self.word("pose").number(link).floats(&to),
            Poke::Coupling {
                at,
                link1,
                axis1,
                link2,
                axis2,
            } => self.word("coupling").number(at).numbers(&[link1, axis1, link2, axis2]),
            Poke::Table(at, x) => self.word("table").number(at).floats(&[x]),
        }
    }

    fn command(&mut self, command: &Command) -> &mut Self {
        match *command {
            Command::New => self.word("new"),
            Command::Empty => self.word("empty"),
            Command::Full => self.word("full"),
            Command::Link(ref new) => self.word("link").link(new),
            Command::Row { row, link, axis, value } => self
                .word("row")
                .word(word_of(&RowName::WORDS, row))
                .numbers(&[link, axis])
                .floats(&[value]),
            Command::Coord { link, axis, value } => self.word("coord").numbers(&[link, axis]).floats(&[value]),
            Command::Frames { link, frame1, frame2 } => {
                self.word("frames").number(link).floats(&frame1).floats(&frame2)
            }
            Command::Com { link, com } => self.word("com").number(link).floats(&com),
            Command::Spring {
                link,
                axis,
                stiffness,
                rest,
            } => self.word("spring").numbers(&[link, axis]).floats(&[stiffness, rest]),
            Command::SpringOf { link, axis } => self.word("spring_of").numbers(&[link, axis]),
            Command::Coupling(ref new) => self.word("coupling").coupling(new),
            Command::Step { dt } => self.word("step").floats(&[dt]),
            Command::Root { to, pose } => self.word("root").word(word_of(&RootType::WORDS, to)).floats(&pose),
            Command::Branch { link } => self.word("branch").number(link),
            Command::View { role, link } => self.word("view").word(word_of(&Role::WORDS, role)).number(link),
            Command::Jmul {
                link,
                ref accelerations,
            } => self.word("jmul").number(link).floats(accelerations),
            Command::Masks { locked, limit, motor } => self.word("masks").numbers(&[locked, limit, motor]),
            Command::Starts { ref masks } => self.word("starts").numbers(masks),
            Command::Rot { angle } => self.word("rot").floats(&[angle]),
            Command::Split { how, link } => self.word("split").word(word_of(&Split::WORDS, how)).number(link),
            Command::Part { how, link, part } => self
                .word("part")
                .word(word_of(&Split::WORDS, how))
                .numbers(&[link, part]),
            Command::Mass { ref matrix } => {
                let side = matrix.len().isqrt();
                debug_assert!(side <= DOFS && side * side == matrix.len());
                self.word("mass").number(side).floats(matrix)
            }
            Command::Short { floats } => self.word("short").number(floats),
            Command::ShortRows { floats } => self.word("short_rows").number(floats),
            Command::ShortOut { places } => self.word("short_out").number(places),
            Command::Solve { ref right } => self.word("solve").floats(right),
            Command::Limit { link, axis, limit } => self.word("limit").numbers(&[link, axis]).floats(&[
                limit.pos,
                limit.min,
                limit.max,
                limit.dt,
                limit.erp_inv_dt,
                limit.cfm_coeff,
            ]),
            Command::Friction {
                link,
                axis,
                dt,
                cfm_coeff,
            } => self.word("friction").numbers(&[link, axis]).floats(&[dt, cfm_coeff]),
            Command::Filljac { link, force, torque } => {
                self.word("filljac").number(link).floats(&force).floats(&[torque])
            }
            Command::Dump => self.word("dump"),
            Command::Kin => self.word("kin"),
            Command::Check => self.word("check"),
            Command::Poke(poke) => self.word("poke").poke(poke),
        }
    }
}

/// The line of a command, without its newline.
pub fn line(command: &Command, spelling: &mut impl Spelling) -> String {
    let mut words = Words {
        line: String::new(),
        spelling,
    };
    words.command(command);
    words.line
}
