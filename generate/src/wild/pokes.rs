//! Arms and tables that no accepted call makes, and calls on them.

use super::author::Author;
use super::commands::COMMANDS;
use crate::floats;
use plain::masks::ANGLE;
use script::limits::{AXES, BLOCK, COUPLINGS, DOFS, LENT, LINKS, TABLES};
use script::{Command, Poke, RowName, Split};

type PokeMask = fn(usize, u8) -> Poke;

impl Author {
    /// Break or change something, call the arm, and mostly take it back.
    pub fn poke_round(&mut self) {
        let count = self.hand.rng.pick(&[1, 1, 1, 2, 2, 3]);
        let back: Vec<Poke> = (0..count).map(|_| self.poke()).collect();
        let table = back.iter().find_map(|poke| match *poke {
            Poke::Table(at, _) if at < TABLES => Some(at / BLOCK),
            _ => None,
        });
        if let Some(link) = table {
            for _ in 0..3 {
                self.write_over_block(link);
            }
        }
        if self.hand.rng.chance(120) {
            for (_, write) in COMMANDS {
                write(self);
            }
        } else {
            for _ in 0..self.hand.rng.between(1, 8) {
                self.write_any();
            }
        }
        if self.hand.rng.chance(850) {
            for &poke in back.iter().rev() {
                self.command(Command::Poke(poke));
            }
        }
        if self.hand.rng.chance(300) {
            self.write_full();
        }
        if self.hand.rng.chance(300) {
            self.write_dump();
            self.write_kin();
        }
    }

    /// Poke once; what takes it back.
    fn poke(&mut self) -> Poke {
        // Mostly a link of the arm, at times a place past them.
        let link = match self.some_link() {
            Some(link) if !self.hand.rng.chance(40) => link,
            _ => self.hand.rng.below(LINKS),
        };
        let (poke, back) = match self.hand.rng.below(14) {
            0 => self.poke_links(),
            1 => self.poke_couplings(),
            2 => self.poke_tag(link),
            3 => self.poke_parent(link),
            4..=6 => self.poke_mask(link),
            7 | 8 => self.poke_coordinate(link),
            9 => self.poke_rotation(link),
            10 => self.poke_pose(link),
            11 => self.poke_coupling(),
            _ => self.poke_table(),
        };
        self.command(Command::Poke(poke));
        back
    }

    /// Something that is far out, but finite, and a call that may overflow over it.
    pub fn write_overflow(&mut self) {
        let at = self.some_link().unwrap_or(0);
        let link = at as u32;
        let rng = &mut self.hand.rng;
        let [re, im] = floats::unit_rotation(rng);
        let [x, y] = [floats::huge(rng), floats::huge(rng)];
        let (near, far) = ([1.0, 0.0, 0.0, 0.0], [re, im, x, y]);
        let dt = rng.pick(&[1.0, 2.0, 10.0, -3.0, 0.5]);
        match rng.below(8) {
            0 => {
                let axis = rng.below(ANGLE) as u32;
                self.write_value(RowName::Velocities, [link, axis], x);
                self.command(Command::Step { dt });
            }
            1 => {
                let part = if at == 0 { 0 } else { rng.pick(&[0, 1, 1]) };
                self.command(Command::Com { link, com: [y, x] });
                self.command(Command::Poke(Poke::Pose(at, far)));
                self.command(Command::Part {
                    how: Split::Cut,
                    link,
                    part,
                });
            }
            2 => {
                let now = self.session.engine.arm.links[at].joint.rot.floats();
                self.command(Command::Poke(Poke::Rotation(at, [x, y])));
                self.write_full();
                self.write_moving();
                self.command(Command::Poke(Poke::Rotation(at, now)));
            }
            3 => {
                let [link, axis] = self.free_axis();
                self.write_value(RowName::Frictions, [link, axis], x.abs());
                self.lend_mass();
                self.command(Command::Friction {
                    link,
                    axis,
                    dt,
                    cfm_coeff: 0.0,
                });
            }
            4 => {
                let free = self.free_axis();
                self.write_value(RowName::Velocities, free, x);
                self.lend_mass();
                let [fx, fy, torque] = [0; 3].map(|_| self.hand.rng.pick(&[0.0, 1.0, 2.0, -3.0, 10.0]));
                self.command(Command::Filljac {
                    link,
                    force: [fx, fy],
                    torque,
                });
            }
            5 => self.command(Command::Frames {
                link,
                frame1: far,
                frame2: near,
            }),
            6 => self.command(Command::Frames {
                link,
                frame1: near,
                frame2: far,
            }),
            _ => {
                self.command(Command::Com { link, com: [x, y] });
                self.write_moving();
            }
        }
    }

    fn write_value(&mut self, row: RowName, [link, axis]: [u32; 2], value: f32) {
        self.command(Command::Row { row, link, axis, value });
    }

    fn poke_links(&mut self) -> (Poke, Poke) {
        let now = self.session.engine.arm.link_count as u8;
        let rng = &mut self.hand.rng;
        let count = match rng.below(6) {
            0..=2 => rng.pick(&[17, 18, 32, 48, 255]),
            3 => 0,
            4 => now.saturating_sub(1),
            _ => rng.below(LINKS + 1) as u8,
        };
        (Poke::Links(count), Poke::Links(now))
    }

    fn poke_couplings(&mut self) -> (Poke, Poke) {
        let now = self.session.engine.arm.coupling_count as u8;
        let rng = &mut self.hand.rng;
        let count = match rng.below(4) {
            0 | 1 => rng.pick(&[9, 10, 16, 255]),
            2 => now.saturating_sub(1),
            _ => rng.below(COUPLINGS + 1) as u8,
        };
        (Poke::Couplings(count), Poke::Couplings(now))
    }

    fn poke_tag(&mut self, link: usize) -> (Poke, Poke) {
        let links = &self.session.engine.arm.links;
        let rng = &mut self.hand.rng;
        let other = rng.below(self.session.engine.arm.links().len().max(1));
        let tag = match rng.chance(700) {
            true => links[other].tag,
            false => rng.bits(),
        };
        (Poke::Tag(link, tag), Poke::Tag(link, links[link].tag))
    }

    fn poke_parent(&mut self, link: usize) -> (Poke, Poke) {
        let rng = &mut self.hand.rng;
        let parent = match rng.below(5) {
            0 => link,
            1 => link + 1,
            2 => rng.pick(&[15, 16, 17, 255]),
            _ => rng.below(link.max(1)),
        };
        let now = self.session.engine.arm.links[link].parent;
        (Poke::Parent(link, parent as u8), Poke::Parent(link, now))
    }

    fn poke_mask(&mut self, link: usize) -> (Poke, Poke) {
        let joint = &self.session.engine.arm.links[link].joint;
        let rng = &mut self.hand.rng;
        let masks: [(PokeMask, u8); 3] = [
            (Poke::Locked, joint.locked),
            (Poke::Limit, joint.limit),
            (Poke::Motor, joint.motor),
        ];
        let (poke, now) = rng.pick(&masks);
        let mask = match rng.below(3) {
            0 => rng.pick(&[8, 15, 16, 128, 248, 255]),
            1 => now | rng.pick(&[8, 16, 64, 128]),
            _ => rng.below(8) as u8,
        };
        (poke(link, mask), poke(link, now))
    }

    fn poke_coordinate(&mut self, link: usize) -> (Poke, Poke) {
        let rng = &mut self.hand.rng;
        let axis = rng.pick(&[0, 1, ANGLE, ANGLE, ANGLE]);
        let value = match rng.below(4) {
            0 => floats::odd(rng),
            1 if axis == ANGLE => floats::angle_border(rng),
            2 if axis == ANGLE => floats::angle(rng, plain::limits::MOST_ANGLE),
            _ => floats::huge(rng),
        };
        let now = self.session.engine.arm.links[link].joint.coords[axis];
        (Poke::Coordinate(link, axis, value), Poke::Coordinate(link, axis, now))
    }

    fn poke_rotation(&mut self, link: usize) -> (Poke, Poke) {
        let rng = &mut self.hand.rng;
        let rotation = match rng.below(3) {
            0 => floats::odd_rotation(rng),
            1 => floats::unit_rotation(rng),
            _ => [floats::within(rng, 2.0), floats::odd(rng)],
        };
        let now = self.session.engine.arm.links[link].joint.rot.floats();
        (Poke::Rotation(link, rotation), Poke::Rotation(link, now))
    }

    fn poke_pose(&mut self, link: usize) -> (Poke, Poke) {
        let rng = &mut self.hand.rng;
        let [re, im] = match rng.below(3) {
            0 => floats::odd_rotation(rng),
            _ => floats::unit_rotation(rng),
        };
        let [x, y] = [0; 2].map(|_| match rng.below(6) {
            0 => floats::odd(rng),
            1 | 2 => floats::huge(rng),
            _ => floats::within(rng, 2.0),
        });
        let now = self.session.engine.arm.links[link].kept.pose.floats();
        (Poke::Pose(link, [re, im, x, y]), Poke::Pose(link, now))
    }

    fn poke_coupling(&mut self) -> (Poke, Poke) {
        let count = self.session.engine.arm.couplings().len();
        let links = self.links();
        let rng = &mut self.hand.rng;
        let at = match count > 0 && rng.chance(900) {
            true => rng.below(count),
            false => rng.below(COUPLINGS),
        };
        let [link1, link2] = [0; 2].map(|_| match rng.below(4) {
            0 => rng.pick(&[links, links + 1, 16, 255]) as u8,
            _ => rng.below(links.max(1)) as u8,
        });
        let [axis1, axis2] = [0; 2].map(|_| match rng.chance(150) {
            true => rng.pick(&[3, 4, 255]),
            false => rng.below(AXES) as u8,
        });
        let now = &self.session.engine.arm.couplings[at];
        let back = Poke::Coupling {
            at,
            link1: now.link1,
            axis1: now.axis1,
            link2: now.link2,
            axis2: now.axis2,
        };
        let poke = Poke::Coupling {
            at,
            link1,
            axis1,
            link2,
            axis2,
        };
        (poke, back)
    }

    /// A call that reads or writes the block of a link.
    fn write_over_block(&mut self, link: usize) {
        let shape = self.shape();
        let children: Vec<usize> = (link + 1..shape.links.len())
            .filter(|&child| shape.links[child].parent == link)
            .collect();
        let (force, torque) = (self.hand.point(), self.hand.float());
        let number = link as u32;
        match self.hand.rng.below(4) {
            0 => {
                self.lend_mass();
                self.command(Command::Filljac {
                    link: number,
                    force,
                    torque,
                });
            }
            1 if !children.is_empty() => {
                let child = self.hand.rng.pick(&children) as u32;
                self.command(Command::Com {
                    link: child,
                    com: force,
                });
            }
            2 => self.command(Command::Com {
                link: number,
                com: force,
            }),
            _ => {
                let mut new = self.hand.new_link(&shape);
                new.parent = number;
                self.command(Command::Link(new));
            }
        }
    }

    /// A float of a block that is there, of a column past the DoFs, of a spare block, or past the tables.
    fn poke_table(&mut self) -> (Poke, Poke) {
        let dofs = self.dofs();
        let link = self.some_link().unwrap_or(0);
        let rng = &mut self.hand.rng;
        let row = link * BLOCK + rng.below(AXES) * DOFS;
        let at = match rng.below(10) {
            0 => rng.between(TABLES - 1, LENT - 1),
            1 => rng.below(LENT),
            2..=4 => row + rng.between(dofs.min(DOFS - 1), DOFS - 1),
            _ => row + rng.below(dofs.max(1)),
        };
        let value = match rng.below(6) {
            0 => -0.0,
            1 => floats::not_finite(rng),
            2 => floats::huge(rng),
            3 => floats::odd(rng),
            _ => floats::within(rng, 2.0),
        };
        (Poke::Table(at, value), Poke::Table(at, self.session.engine.tables[at]))
    }
}
