//! The author of a script. It plays along while it writes, so it knows the arm that its next line meets.

use super::coverage::Coverage;
use crate::hand::{Hand, Nature};
use crate::rng::Rng;
use crate::shape::Shape;
use crate::spelling::{Variously, line, spoilt};
use script::limits::LINKS;
use script::{Command, Engine, Line, Session, read};

pub struct Author {
    pub hand: Hand,
    pub session: Session<plain::Engine>,
    pub script: Vec<u8>,
    pub answers: Vec<u8>,
    pub coverage: Coverage,
    /// Nothing is handed in that is broken or too short.
    sound: bool,
    /// Commands are spoilt before they are written.
    pub spoils: bool,
    /// An accepted call may have changed row places past the DoF count, which mean nothing: they aren't to be shown.
    murky: bool,
}

impl Author {
    pub fn new(seed: u64, index: u64, sound: bool) -> Author {
        Author {
            hand: Hand {
                rng: Rng::new(seed, index),
                nature: Nature::CALM,
            },
            session: Session::new(plain::Engine::default()),
            script: Vec::new(),
            answers: Vec::new(),
            coverage: Coverage::default(),
            sound,
            spoils: false,
            murky: false,
        }
    }

    /// Write a line, and play it.
    pub fn say(&mut self, line: impl AsRef<[u8]>) {
        let line = line.as_ref();
        debug_assert!(!line.contains(&b'\n'));
        let command = read(line);
        if self.sound && is_unsound(&command) || self.shows_murk(&command) {
            return;
        }
        self.script.extend_from_slice(line);
        self.script.push(b'\n');
        let begin = self.answers.len();
        let hides = self.hides_entries();
        self.session.answer(line, &mut self.answers);
        let answer = &self.answers[begin..];
        self.coverage.count(line, answer);
        if answer.starts_with(b"ok") && (hides || self.murky) {
            match command {
                Line::Command(Command::New | Command::Empty) => self.murky = false,
                Line::Command(Command::Link(_) | Command::Root { .. } | Command::Part { .. }) => self.murky = true,
                _ => {}
            }
        }
    }

    /// Whether a row place past the DoF count, left over by a poke, isn't plus zero.
    fn hides_entries(&self) -> bool {
        let arm = &self.session.engine.arm;
        let dofs = arm.dofs();
        arm.rows.iter().any(|row| row[dofs..].iter().any(|x| x.to_bits() != 0))
    }

    /// Whether a poke would show row places that mean nothing.
    fn shows_murk(&self, command: &Line) -> bool {
        let Line::Command(Command::Poke(poke)) = *command else {
            return false;
        };
        self.murky && {
            let mut engine = self.session.engine.clone();
            engine.poke(poke).is_err() || engine.dofs() > self.session.engine.dofs()
        }
    }

    /// Write a line, at times with spaces that don't matter.
    pub fn line(&mut self, line: &str) {
        let rng = &mut self.hand.rng;
        if self.spoils {
            let line = spoilt(rng, line);
            self.say(line);
        } else if rng.chance(20) {
            let gap = " ".repeat(rng.between(1, 3));
            let line = line.replace(' ', &gap);
            let spaced = match rng.below(3) {
                0 => format!("  {line}"),
                1 => format!("{line} "),
                _ => format!(" {line}   "),
            };
            self.say(spaced);
        } else {
            self.say(line);
        }
    }

    pub fn command(&mut self, command: Command) {
        let line = line(&command, &mut Variously(&mut self.hand.rng));
        self.line(&line);
    }

    pub fn shape(&self) -> Shape {
        Shape::of(&self.session.engine)
    }

    pub fn links(&self) -> usize {
        self.session.engine.links()
    }

    pub fn dofs(&self) -> usize {
        self.session.engine.dofs()
    }

    /// A link of the arm.
    pub fn link(&mut self) -> u32 {
        let shape = self.shape();
        self.hand.link(&shape)
    }

    pub fn some_link(&mut self) -> Option<usize> {
        let shape = self.shape();
        self.hand.some_link(&shape)
    }

    pub fn free_axis(&mut self) -> [u32; 2] {
        let shape = self.shape();
        self.hand.free_axis(&shape)
    }

    /// A count around one that matters.
    pub fn around(&mut self, count: usize) -> u32 {
        let near = [
            count.saturating_sub(1),
            count.saturating_sub(1),
            count,
            count,
            count + 1,
            0,
        ];
        self.hand.rng.pick(&near) as u32
    }

    /// Whether the arm is so large that printing it all is dear.
    pub fn is_large(&self) -> bool {
        self.links() * self.dofs() > LINKS * LINKS
    }
}

/// Whether a command hands in what no accepted call makes, or lends less than there is.
fn is_unsound(line: &Line) -> bool {
    use Command::{Poke, Short, ShortOut, ShortRows};
    matches!(
        line,
        Line::Command(Poke(_) | Short { .. } | ShortRows { .. } | ShortOut { .. })
    )
}
