//! One line of each command, with arguments that the arm accepts unless the author's nature has it otherwise.

use super::author::Author;
use crate::floats;
use crate::masses;
use crate::spelling::decimal;
use plain::limits::MOST_ANGLE;
use script::limits::{DOFS, LENT, LINKS, TABLES};
use script::{Command, Engine, Role, RootType, RowName, Split};

pub type Write = fn(&mut Author);

/// Every command with its weight in an ordinary run.
pub const COMMANDS: [(usize, Write); 31] = [
    (70, Author::write_link),
    (100, Author::write_row),
    (120, Author::write_coord),
    (50, Author::write_frames),
    (50, Author::write_com),
    (30, Author::write_spring),
    (20, Author::write_spring_of),
    (35, Author::write_coupling),
    (70, Author::write_step),
    (45, Author::write_root),
    (30, Author::write_branch),
    (35, Author::write_view),
    (30, Author::write_jmul),
    (12, Author::write_masks),
    (14, Author::write_starts),
    (14, Author::write_rot),
    (25, Author::write_split),
    (8, Author::write_part),
    (12, Author::write_mass),
    (20, Author::write_solve),
    (40, Author::write_limit),
    (40, Author::write_friction),
    (40, Author::write_filljac),
    (20, Author::write_full),
    (1, Author::write_empty),
    (5, Author::write_short),
    (5, Author::write_short_rows),
    (8, Author::write_short_out),
    (20, Author::write_dump),
    (20, Author::write_kin),
    (40, Author::write_check),
];

/// What lends everything in full again.
const LENT_IN_FULL: u32 = u32::MAX;

impl Author {
    /// A command by its weight.
    pub fn write_any(&mut self) {
        let weights = COMMANDS.map(|(weight, _)| weight);
        let (_, write) = COMMANDS[self.hand.rng.weighted(&weights)];
        write(self);
    }

    /// A call that ends in kinematics.
    pub fn write_moving(&mut self) {
        const MOVING: [Write; 9] = [
            Author::write_coord,
            Author::write_frames,
            Author::write_com,
            Author::write_step,
            Author::write_root,
            Author::write_full,
            Author::write_link,
            Author::write_part,
            Author::write_filljac,
        ];
        self.hand.rng.pick(&MOVING)(self);
    }

    pub fn write_link(&mut self) {
        let shape = self.shape();
        let new = self.hand.new_link(&shape);
        self.command(Command::Link(new));
    }

    pub fn write_row(&mut self) {
        let (_, row) = self.hand.rng.pick(&RowName::WORDS);
        let [link, axis] = self.free_axis();
        // Friction is mostly a real one.
        let value = match row {
            RowName::Frictions if !self.hand.rng.chance(200) => self.hand.positive(),
            _ => self.hand.float(),
        };
        self.command(Command::Row { row, link, axis, value });
    }

    pub fn write_coord(&mut self) {
        let [link, axis] = self.free_axis();
        let value = self.hand.coordinate(axis);
        self.command(Command::Coord { link, axis, value });
    }

    pub fn write_frames(&mut self) {
        let link = self.link();
        let [frame1, frame2] = [self.hand.pose(), self.hand.pose()];
        self.command(Command::Frames { link, frame1, frame2 });
    }

    pub fn write_com(&mut self) {
        let link = self.link();
        let com = self.hand.point();
        self.command(Command::Com { link, com });
    }

    pub fn write_spring(&mut self) {
        let shape = self.shape();
        let command = Command::Spring {
            link: self.hand.link(&shape),
            axis: self.hand.axis(&shape),
            stiffness: self.hand.positive(),
            rest: self.hand.float(),
        };
        self.command(command);
    }

    pub fn write_spring_of(&mut self) {
        let shape = self.shape();
        let (link, axis) = (self.hand.link(&shape), self.hand.axis(&shape));
        self.command(Command::SpringOf { link, axis });
    }

    pub fn write_coupling(&mut self) {
        let shape = self.shape();
        let new = self.hand.coupling(&shape);
        self.command(Command::Coupling(new));
    }

    pub fn write_step(&mut self) {
        let dt = match self.hand.rng.chance(30) {
            true => self.hand.rng.pick(&[-1.0, 100.0, 300.0, -0.5, 0.0, -0.0, f32::MAX]),
            false => self.hand.positive(),
        };
        self.command(Command::Step { dt });
    }

    pub fn write_root(&mut self) {
        let to = self.hand.rng.pick(&[RootType::Free, RootType::Fixed]);
        let pose = self.hand.pose();
        self.command(Command::Root { to, pose });
    }

    pub fn write_branch(&mut self) {
        let link = self.link();
        self.command(Command::Branch { link });
    }

    pub fn write_view(&mut self) {
        let role = self.hand.rng.pick(&[Role::Velocities, Role::Accelerations]);
        let link = self.link();
        self.command(Command::View { role, link });
    }

    pub fn write_jmul(&mut self) {
        let shape = self.shape();
        let some = self.hand.some_link(&shape);
        let dofs = some.map_or(0, |link| shape.links[link].dofs());
        let count = match self.hand.rng.below(12) {
            0 => dofs.saturating_sub(1),
            1 => dofs + 1,
            2 => self.hand.rng.below(6),
            _ => dofs,
        };
        let link = match some {
            Some(link) if !self.hand.faulty() => link as u32,
            _ => self.hand.odd_number(shape.links.len()),
        };
        let mut accelerations = self.hand.floats(count);
        if self.hand.rng.chance(100) {
            accelerations.push(self.hand.rng.pick(&[f32::NAN, f32::INFINITY, -0.0]));
        }
        self.command(Command::Jmul { link, accelerations });
    }

    pub fn write_masks(&mut self) {
        let [locked, limit, motor] = [0; 3].map(|_| self.hand.mask());
        self.command(Command::Masks { locked, limit, motor });
    }

    pub fn write_starts(&mut self) {
        let count = match self.hand.rng.below(10) {
            0 => self.hand.rng.pick(&[0, 15, 16, 16, 17, 18, 40]),
            _ => self.hand.rng.below(LINKS + 1),
        };
        let masks = (0..count).map(|_| self.hand.mask()).collect();
        self.command(Command::Starts { masks });
    }

    pub fn write_rot(&mut self) {
        let rng = &mut self.hand.rng;
        let angle = match rng.below(8) {
            0 => floats::angle_border(rng),
            1 => floats::odd(rng),
            2 => {
                let decimal = decimal(rng);
                return self.line(&format!("rot {decimal}"));
            }
            _ => floats::angle(rng, MOST_ANGLE),
        };
        self.command(Command::Rot { angle });
    }

    fn some_split(&mut self) -> (Split, u32) {
        let how = self.hand.rng.pick(&[Split::Delete, Split::Cut]);
        (how, self.link())
    }

    pub fn write_split(&mut self) {
        let (how, link) = self.some_split();
        self.command(Command::Split { how, link });
    }

    pub fn write_part(&mut self) {
        let links = self.links();
        let part = match self.hand.rng.below(10) {
            0 => self.hand.odd_number(links),
            1..=3 => 1,
            4 => self.hand.rng.below(4) as u32,
            _ => 0,
        };
        let (how, link) = self.some_split();
        self.command(Command::Part { how, link, part });
    }

    pub fn write_full(&mut self) {
        self.command(Command::Full);
    }

    pub fn write_empty(&mut self) {
        self.command(Command::Empty);
    }

    pub fn write_new(&mut self) {
        self.command(Command::New);
    }

    pub fn write_short(&mut self) {
        let n = self.dofs();
        let floats = match self.hand.rng.below(4) {
            0 => self.around(n * n),
            1 => self.around(TABLES),
            2 => self.around(LENT),
            _ => self.hand.rng.pick(&[TABLES, LENT, 0, 1, 5000]) as u32,
        };
        self.command(Command::Short { floats });
        self.run_on_short_loans(Command::Short { floats: LENT_IN_FULL });
    }

    pub fn write_short_rows(&mut self) {
        let dofs = self.dofs();
        let floats = match self.hand.rng.below(4) {
            0 => self.hand.rng.pick(&[0, 1, 47, 48, 49]),
            _ => self.around(dofs),
        };
        self.command(Command::ShortRows { floats });
        if self.hand.rng.chance(800) {
            self.write_view();
        }
        if self.hand.rng.chance(700) {
            self.command(Command::ShortRows { floats: DOFS as u32 });
        }
    }

    pub fn write_short_out(&mut self) {
        let (links, dofs) = (self.links(), self.dofs());
        let places = match self.hand.rng.below(5) {
            0 => self.hand.rng.pick(&[0, 1, 2, 16, 17, 31, 32, 33, 48]),
            1 => self.around(2 * links),
            2 => {
                let depth = self.some_link().map_or(0, |link| self.depth(link));
                self.around(depth)
            }
            _ => self.around(dofs),
        };
        self.command(Command::ShortOut { places });
        self.run_on_short_loans(Command::ShortOut { places: TABLES as u32 });
    }

    fn depth(&self, link: usize) -> usize {
        let mut branch = [0; LINKS];
        self.session.engine.branch(link as u32, &mut branch).unwrap_or(0)
    }

    /// A few calls under a loan that may be too short, then mostly the whole again.
    fn run_on_short_loans(&mut self, restore: Command) {
        const USERS: [Write; 15] = [
            Author::write_branch,
            Author::write_starts,
            Author::write_split,
            Author::write_solve,
            Author::write_limit,
            Author::write_friction,
            Author::write_filljac,
            Author::write_full,
            Author::write_coord,
            Author::write_com,
            Author::write_frames,
            Author::write_step,
            Author::write_root,
            Author::write_link,
            Author::write_part,
        ];
        for _ in 0..self.hand.rng.below(5) {
            self.hand.rng.pick(&USERS)(self);
        }
        if self.hand.rng.chance(30) {
            self.write_empty();
        }
        if self.hand.rng.chance(850) {
            self.command(restore);
        }
    }

    pub fn write_mass_of(&mut self, n: usize) {
        let matrix = masses::any(&mut self.hand, n);
        self.command(Command::Mass { matrix });
    }

    pub fn write_mass(&mut self) {
        let dofs = self.dofs();
        let rng = &mut self.hand.rng;
        let n = match rng.below(10) {
            0 => dofs.saturating_sub(1),
            1 => dofs + 1,
            2..=5 => rng.below(6),
            6 => rng.below(13),
            7 if rng.chance(100) => rng.between(13, 48),
            _ => dofs,
        };
        self.write_mass_of(n.min(DOFS));
    }

    /// Mostly a matrix that fits the arm, before it is asked for.
    pub fn lend_mass(&mut self) {
        let n = self.dofs();
        let fits = self.session.mass().len() == n * n;
        let renew = if fits { 60 } else { 900 };
        if self.hand.rng.chance(renew) && (n <= 16 || self.hand.rng.chance(300)) {
            self.write_mass_of(n);
        }
    }

    pub fn write_solve(&mut self) {
        if self.hand.rng.chance(400) {
            let n = self.hand.rng.below(7);
            self.write_mass_of(n);
        }
        let side = self.session.mass().len().isqrt();
        let rng = &mut self.hand.rng;
        let count = match rng.below(10) {
            0 => side.saturating_sub(1),
            1 => side + 1,
            2 => rng.below(side + 1),
            3 if rng.chance(200) => rng.between(47, 60),
            _ => side,
        };
        let right = self.hand.floats(count);
        self.command(Command::Solve { right });
    }

    pub fn write_limit(&mut self) {
        self.lend_mass();
        let [link, axis] = self.free_axis();
        let limit = self.hand.limit();
        self.command(Command::Limit { link, axis, limit });
    }

    pub fn write_friction(&mut self) {
        self.lend_mass();
        let [link, axis] = self.free_axis();
        let dt = match self.hand.rng.below(12) {
            0 => self.hand.float(),
            1 => -0.0,
            _ => self.hand.positive(),
        };
        let cfm_coeff = self.hand.cfm_coeff();
        self.command(Command::Friction {
            link,
            axis,
            dt,
            cfm_coeff,
        });
    }

    pub fn write_filljac(&mut self) {
        self.lend_mass();
        let link = self.link();
        let (force, torque) = (self.hand.point(), self.hand.float());
        self.command(Command::Filljac { link, force, torque });
    }

    /// Large arms are printed more rarely.
    fn prints(&mut self) -> bool {
        !self.is_large() || self.hand.rng.chance(300)
    }

    pub fn write_dump(&mut self) {
        if self.prints() {
            self.command(Command::Dump);
        }
    }

    pub fn write_kin(&mut self) {
        if self.prints() {
            self.command(Command::Kin);
        }
    }

    pub fn write_check(&mut self) {
        self.command(Command::Check);
    }
}
