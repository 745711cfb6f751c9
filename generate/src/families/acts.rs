//! Commands that are accepted: what makes, moves, asks and splits an arm.

use super::maker::Maker;
use crate::floats;
use crate::shape::{Shape, ShapeLink};
use plain::masks::ANGLE;
use script::limits::{AXES, COUPLINGS, LINKS};
use script::{Command, NewLink, Poke, Role, RootType, RowName, Split};

const FREE: u32 = 0;
const FIXED: u32 = 7;

impl Maker {
    pub fn drawn_link(&mut self) -> NewLink {
        let mut new = self.hand.new_link(&self.shape);
        if self.is_plain(self.shape.links.len()) {
            [new.frame2[2], new.frame2[3]] = [0.0; 2];
            new.com = [0.0; 2];
        }
        new
    }

    pub fn add_link(&mut self, chain: bool) {
        let count = self.shape.links.len();
        if count == LINKS {
            return;
        }
        let mut new = self.drawn_link();
        if chain {
            new.parent = count.saturating_sub(1) as u32;
        }
        self.accepted(Command::Link(new));
        self.shape.links.push(ShapeLink {
            tag: new.tag,
            parent: new.parent as usize,
            locked: new.locked,
        });
        self.look();
    }

    fn row_value(&mut self, row: RowName, axis: u32) -> f32 {
        match row {
            RowName::Frictions => floats::up_to(&mut self.hand.rng, 1.0),
            // An angle that stays within 256 for most steps.
            RowName::Velocities if axis as usize == ANGLE && self.is_outside() => {
                floats::within(&mut self.hand.rng, 0.001)
            }
            _ => self.hand.float(),
        }
    }

    pub fn write_row(&mut self) {
        if let Some([link, axis]) = self.some_axis(false) {
            let (_, row) = match self.hand.rng.below(6) {
                0 => RowName::WORDS[0],
                _ => self.hand.rng.pick(&RowName::WORDS),
            };
            let value = self.row_value(row, axis);
            self.accepted(Command::Row { row, link, axis, value });
            if self.hand.rng.one_in(16) {
                self.accepted(Command::Dump);
            }
        }
    }

    pub fn move_coordinate(&mut self) {
        if let Some([link, axis]) = self.some_axis(false) {
            let value = self.coordinate(axis);
            self.accepted(Command::Coord { link, axis, value });
            self.look();
        }
    }

    pub fn move_frames(&mut self) {
        let link = self.some_link();
        let ([frame1, frame2], _) = self.placing(self.is_plain(link));
        self.accepted(Command::Frames {
            link: link as u32,
            frame1,
            frame2,
        });
        self.look();
    }

    pub fn move_centre(&mut self) {
        let link = self.some_link();
        let (_, com) = self.placing(self.is_plain(link));
        self.accepted(Command::Com { link: link as u32, com });
        self.look();
    }

    pub fn spring(&mut self) {
        let [place, other] = [0; 2].map(|_| [self.some_link(), self.hand.rng.below(AXES)].map(|number| number as u32));
        let [stiffness, rest] = self.hand.point();
        let [link, axis] = place;
        self.accepted(Command::Spring {
            link,
            axis,
            stiffness,
            rest,
        });
        let [link, axis] = self.hand.rng.pick(&[place, other]);
        self.accepted(Command::SpringOf { link, axis });
    }

    pub fn couple(&mut self) {
        if self.shape.couplings.len() < COUPLINGS {
            let new = self.hand.coupling(&self.shape);
            self.accepted(Command::Coupling(new));
            self.shape.couplings.push(new.links.map(|link| link as usize));
        }
    }

    pub fn step(&mut self) {
        if self.steps_left > 0 {
            self.steps_left -= 1;
            let most = if self.is_outside() { 100.0 } else { 0.02 };
            let dt = floats::within(&mut self.hand.rng, most);
            self.computed(Command::Step { dt });
            self.look();
        }
    }

    pub fn change_root(&mut self) {
        let to = self.hand.rng.pick(&[RootType::Free, RootType::Fixed]);
        let [re, im, x, y] = self.hand.pose();
        self.accepted(Command::Root {
            to,
            pose: [re, im, 0.75 * x, 0.75 * y],
        });
        self.shape.links[0].locked = match to {
            RootType::Free => FREE,
            RootType::Fixed => FIXED,
        };
        self.look();
    }

    pub fn full(&mut self) {
        if self.hand.rng.one_in(16) {
            self.accepted_line("empty\nfull\nstep 0.5\ndump\nkin\ncheck");
            self.shape = Shape::default();
        } else {
            self.accepted(Command::Full);
            self.look();
        }
    }

    /// Questions that change nothing.
    pub fn ask(&mut self) {
        let at = self.some_link();
        let link = at as u32;
        let rng = &mut self.hand.rng;
        let command = match rng.below(7) {
            0 => Command::Branch { link },
            1 => Command::View {
                role: Role::Velocities,
                link,
            },
            2 => Command::View {
                role: Role::Accelerations,
                link,
            },
            3 => {
                let count = self.shape.links[at].dofs() + rng.pick(&[0, 0, 0, 1]);
                let accelerations = self.hand.floats(count);
                Command::Jmul { link, accelerations }
            }
            4 => {
                let [locked, limit, motor] = [0; 3].map(|_| self.hand.mask());
                Command::Masks { locked, limit, motor }
            }
            5 => {
                let count = rng.below(LINKS + 1);
                let masks = (0..count).map(|_| self.hand.mask()).collect();
                Command::Starts { masks }
            }
            _ => {
                let most = rng.pick(&[256.0, 1.0e-3, 1.6, 20.0]);
                let angle = floats::within(rng, most);
                Command::Rot { angle }
            }
        };
        self.accepted(command);
    }

    fn some_split(&mut self) -> (Split, u32) {
        let how = self.hand.rng.pick(&[Split::Delete, Split::Cut]);
        (how, self.some_link() as u32)
    }

    pub fn split(&mut self) {
        let (how, link) = self.some_split();
        self.accepted(Command::Split { how, link });
    }

    /// A part, mostly the largest.
    pub fn take_part(&mut self) {
        let (how, link) = self.some_split();
        let (cut, removed) = (how == Split::Cut, link as usize);
        let heads = self.shape.heads(cut, removed);
        let size = |part: &usize| self.shape.part(cut, removed, heads[*part]).links.len();
        let Some(largest) = (0..heads.len()).max_by_key(size) else {
            return;
        };
        let part = match self.hand.rng.one_in(3) {
            true => self.hand.rng.below(heads.len()),
            false => largest,
        };
        self.make_plain(heads[part]);
        self.accepted(Command::Split { how, link });
        self.accepted(Command::Part {
            how,
            link,
            part: part as u32,
        });
        self.accepted(Command::Dump);
        self.shape = self.shape.part(cut, removed, heads[part]);
        self.look();
    }

    /// A part's head stands at the kept world pose, whatever the coordinates say.
    pub fn kept_pose(&mut self) {
        if !self.is_outside() && self.hand.rng.one_in(3) {
            let head = self.some_link();
            self.make_plain(head);
            let pose = self.hand.pose();
            self.accepted(Command::Poke(Poke::Pose(head, pose)));
            self.accepted(Command::Part {
                how: Split::Cut,
                link: head as u32,
                part: u32::from(head > 0),
            });
            self.accepted(Command::Dump);
            self.accepted(Command::Kin);
            self.shape = self.shape.part(true, head, head);
        }
    }

    /// The largest floats, set and taken back.
    pub fn extreme(&mut self) {
        if let (true, Some([link, axis])) = (self.is_outside(), self.some_axis(false)) {
            let value = match axis as usize {
                ANGLE => 256.0,
                _ => self
                    .hand
                    .rng
                    .pick(&[f32::MAX, f32::MIN, 4.2535296e37, f32::from_bits(1)]),
            };
            self.either(Command::Coord { link, axis, value });
            self.either(Command::Step { dt: 0.5 });
            self.accepted(Command::Dump);
            self.accepted(Command::Coord { link, axis, value: 0.0 });
            self.accepted(Command::Dump);
        }
    }
}
