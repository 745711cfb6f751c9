//! What writes a script: it follows the shape of the arm that its commands make.

use super::expected::Expected;
use super::family::Family;
use crate::floats;
use crate::hand::{Hand, Nature};
use crate::rng::Rng;
use crate::shape::Shape;
use crate::spelling::{Plainly, line};
use plain::masks::ANGLE;
use script::limits::LINKS;
use script::{Command, Pose};

/// Inside 01's domain.
const INSIDE: Nature = Nature {
    tiny: 5,
    most: 1.0,
    ..Nature::CALM
};

const OUTSIDE: Nature = Nature {
    most: 1.0e6,
    ..Nature::CALM
};

pub struct Maker {
    pub hand: Hand,
    pub family: Family,
    pub out: String,
    pub shape: Shape,
    /// The dimension of the mass matrix given last.
    pub mass: Option<usize>,
    pub steps_left: usize,
}

impl Maker {
    pub fn new(rng: Rng, family: Family) -> Maker {
        let nature = match family {
            Family::Outside => OUTSIDE,
            _ => INSIDE,
        };
        Maker {
            hand: Hand { rng, nature },
            family,
            out: String::new(),
            shape: Shape::default(),
            mass: None,
            steps_left: 10,
        }
    }

    pub fn is_outside(&self) -> bool {
        self.family == Family::Outside
    }

    // ---- Writing

    fn write(&mut self, expected: Expected, line: &str) {
        self.out += &expected.to_string();
        self.out += line;
        self.out.push('\n');
    }

    pub fn accepted_line(&mut self, line: &str) {
        self.write(Expected::Accepted, line);
    }

    pub fn refused_line(&mut self, number: u8, line: &str) {
        self.write(Expected::Refused(number), line);
    }

    pub fn accepted(&mut self, command: Command) {
        self.write(Expected::Accepted, &line(&command, &mut Plainly));
    }

    pub fn refused(&mut self, number: u8, command: Command) {
        self.write(Expected::Refused(number), &line(&command, &mut Plainly));
    }

    pub fn either(&mut self, command: Command) {
        self.write(Expected::Either, &line(&command, &mut Plainly));
    }

    /// A command whose results may overflow outside 01's domain.
    pub fn computed(&mut self, command: Command) {
        match self.is_outside() {
            true => self.either(command),
            false => self.accepted(command),
        }
    }

    /// What is there, now and then; a large arm more rarely.
    pub fn look(&mut self) {
        let is_large = self.shape.links.len() * self.shape.dofs() > LINKS * LINKS;
        if is_large && !self.hand.rng.one_in(4) {
            return;
        }
        match self.hand.rng.below(8) {
            0 | 1 => self.accepted(Command::Dump),
            2 => self.accepted(Command::Kin),
            3 => {
                self.accepted(Command::Dump);
                self.accepted(Command::Kin);
            }
            4 => self.accepted(Command::Check),
            _ => {}
        }
    }

    // ---- Drawing

    pub fn some_link(&mut self) -> usize {
        self.hand.rng.below(self.shape.links.len())
    }

    /// A link and an axis of it that is free, or locked.
    pub fn some_axis(&mut self, locked: bool) -> Option<[u32; 2]> {
        let axes = self.shape.axes(locked);
        (!axes.is_empty()).then(|| self.hand.rng.pick(&axes).map(|number| number as u32))
    }

    /// A coordinate that leaves room in the domain for what steps add.
    pub fn coordinate(&mut self, axis: u32) -> f32 {
        match axis as usize {
            ANGLE => floats::angle(&mut self.hand.rng, 255.5),
            _ => self.hand.float() * 0.75,
        }
    }

    /// Frames and centre of mass; a plain link's shift23 is zero.
    pub fn placing(&mut self, plain: bool) -> ([Pose; 2], [f32; 2]) {
        let ([frame1, mut frame2], mut com) = ([self.hand.pose(), self.hand.pose()], self.hand.point());
        if plain {
            [frame2[2], frame2[3]] = [0.0; 2];
            com = [0.0; 2];
        }
        ([frame1, frame2], com)
    }

    /// Whether a link is the root, and that is to be plain.
    pub fn is_plain(&self, link: usize) -> bool {
        link == 0 && self.family.has_plain_root()
    }

    /// The crate keeps a head's old shift23; of a plain head it is zero before and after.
    pub fn make_plain(&mut self, head: usize) {
        if self.family.has_plain_root() && head > 0 {
            let ([frame1, frame2], com) = self.placing(true);
            let link = head as u32;
            self.accepted(Command::Frames { link, frame1, frame2 });
            self.accepted(Command::Com { link, com });
        }
    }
}
