//! Commands that must be refused, each with the lowest number that applies to it.

use super::maker::Maker;
use plain::masks::ANGLE;
use script::limits::{COUPLINGS, LINKS, TABLES};
use script::{Command, NewLink};

const TOO_LARGE: [u32; 3] = [16, 255, u32::MAX];

impl Maker {
    pub fn refusal(&mut self) {
        match self.hand.rng.below(10) {
            0 | 1 => self.refused_link(),
            2 | 3 => self.refused_number(),
            4 | 5 => self.refused_axis(),
            6 => self.refused_float(),
            7 => self.refused_solve(),
            8 => self.refused_loan(),
            _ => self.broken_arm(),
        }
    }

    /// A number at the link count or past it.
    fn beyond(&mut self) -> u32 {
        match self.shape.links.len() {
            LINKS => self.hand.rng.pick(&TOO_LARGE),
            count => count as u32,
        }
    }

    fn refused_link(&mut self) {
        let (new, count) = (self.drawn_link(), self.shape.links.len());
        let (beyond, other) = (self.beyond(), self.some_link());
        let taken = self.shape.links[other].tag;
        if count == LINKS {
            self.refused(2, Command::Link(new));
            return self.refused(
                2,
                Command::Link(NewLink {
                    tag: taken,
                    parent: beyond,
                    locked: 8,
                    ..new
                }),
            );
        }
        let [mut frame1, mut frame2] = [new.frame1, new.frame2];
        (frame1[0], frame1[1]) = self.hand.rng.pick(&[(1.0, 0.0448), (0.999, 0.0)]);
        frame2[3] = self.hand.rng.pick(&[f32::NAN, f32::NEG_INFINITY]);
        let (number, refused) = self.hand.rng.pick(&[
            (3, NewLink { tag: taken, ..new }),
            (
                3,
                NewLink {
                    tag: taken,
                    parent: beyond,
                    locked: 8,
                    ..new
                },
            ),
            (4, NewLink { parent: beyond, ..new }),
            (
                4,
                NewLink {
                    parent: beyond,
                    locked: 8,
                    ..new
                },
            ),
            (5, NewLink { locked: 8, ..new }),
            (7, NewLink { frame1, frame2, ..new }),
            (7, NewLink { frame2, ..new }),
            (8, NewLink { frame1, ..new }),
        ]);
        self.refused(number, Command::Link(refused));
    }

    fn refused_number(&mut self) {
        let (beyond, link) = (self.beyond(), self.some_link() as u32);
        let line = match self.hand.rng.below(12) {
            0 => format!("branch {beyond}"),
            1 => format!("view vel {beyond}"),
            2 => format!("jmul {beyond} nan"),
            3 => format!("split cut {beyond}"),
            4 => format!("part delete {beyond} 0"),
            5 => format!("part cut {link} 2"),
            6 => format!("row damp {beyond} 3 nan"),
            7 => format!("coord {beyond} 2 300"),
            8 => format!("frames {beyond} 2 0 0 0 1 0 0 0"),
            9 => format!("com {beyond} inf 0"),
            10 => format!("spring_of {beyond} 3"),
            _ => format!("spring {beyond} 0 nan 0"),
        };
        self.refused_line(4, &line);
        let mut new = self.hand.coupling(&self.shape);
        new.links[1] = beyond;
        let full = self.shape.couplings.len() == COUPLINGS;
        self.refused(if full { 2 } else { 4 }, Command::Coupling(new));
    }

    fn refused_axis(&mut self) {
        let link = self.some_link();
        let axis = self.hand.rng.pick(&[3, 255, u32::MAX]);
        let line = match self.hand.rng.below(6) {
            0 => format!("row acc {link} {axis} nan"),
            1 => format!("coord {link} {axis} inf"),
            2 => format!("spring {link} {axis} 0 nan"),
            3 => format!("spring_of {link} {axis}"),
            4 => format!("masks 0 {axis} 8"),
            _ => format!("starts 7 3 {}", axis.max(8)),
        };
        self.refused_line(5, &line);
        if let Some([link, axis]) = self.some_axis(true) {
            let command = self.hand.rng.pick(&["row vel", "row fric", "coord"]);
            let value = self.hand.rng.pick(&["0", "nan", "300"]);
            self.refused_line(6, &format!("{command} {link} {axis} {value}"));
        }
    }

    fn refused_float(&mut self) {
        let link = self.some_link();
        let value = self.hand.rng.pick(&["nan", "inf", "-inf", "x7f800001"]);
        let line = match self.hand.rng.below(6) {
            0 => format!("com {link} 0 {value}"),
            1 => format!("frames {link} 1 0 0 0 {value} 0 0 0"),
            2 => format!("spring {link} 1 0 {value}"),
            3 => format!("step {value}"),
            4 => format!("root free 1 0 {value} 0"),
            _ => format!("rot {value}"),
        };
        self.refused_line(7, &line);
        self.refused_line(8, &format!("frames {link} 1 0.0448 0 0 1 0 0 0"));
        self.refused_line(8, "root fixed 0 0.999 0 0");
        self.refused_line(9, "rot x43800001");
        self.accepted_line("rot 256\nrot -256");
        let turning = self.shape.axes(false).into_iter().find(|[_, axis]| *axis == ANGLE);
        if let Some([link, axis]) = turning {
            self.refused_line(9, &format!("coord {link} {axis} xc3800001"));
            self.accepted_line(&format!("row vel {link} {axis} 1\ncoord {link} {axis} 256\ndump"));
            self.refused_line(9, "step 1");
            self.accepted_line(&format!("coord {link} {axis} 0.5\nkin"));
        }
    }

    fn refused_solve(&mut self) {
        self.lend_mass();
        if let Some([link, axis]) = self.some_axis(true) {
            self.refused_line(6, &format!("limit {link} {axis} 0 1 0 nan 1 0"));
            self.refused_line(6, &format!("friction {link} {axis} nan 0"));
        }
        if let Some([link, axis]) = self.some_axis(false) {
            self.refused_line(5, &format!("limit {link} 3 0 1 0 0 1 0"));
            self.refused_line(7, &format!("limit {link} {axis} 0 1 0 nan 1 0"));
            self.refused_line(10, &format!("limit {link} {axis} 0 1 0.5 0.01 1 0"));
            self.refused_line(7, &format!("filljac {link} 0 0 nan"));
            self.accepted_line(&format!("row fric {link} {axis} 0.5"));
            self.refused_line(10, &format!("friction {link} {axis} -0.01 0"));
            self.accepted_line(&format!("friction {link} {axis} 0.01 0"));
            self.refused_singular(link);
        }
        self.accepted_line("mass 1 x00000001");
        self.refused_line(12, "solve max");
        self.accepted_line("mass 2 x7f000000 x7f000000 x7f000000 xff000000");
        self.refused_line(12, "solve 1 1");
        self.accepted_line("mass 0\nsolve");
        self.refused_line(1, "solve 1");
        self.mass = None;
    }

    fn refused_singular(&mut self, link: u32) {
        let n = self.shape.dofs();
        self.accepted(Command::Mass {
            matrix: vec![0.0; n * n],
        });
        self.refused(11, Command::Solve { right: vec![1.0; n] });
        self.refused_line(11, &format!("filljac {link} 1 0 0"));
    }

    fn refused_loan(&mut self) {
        let link = self.some_link();
        self.accepted_line(&format!("short {}", TABLES - 1));
        let line = match self.hand.rng.below(7) {
            0 => "full".into(),
            1 => "empty".into(),
            2 => "step nan".into(),
            3 => format!("com {link} nan 0"),
            4 => format!("part cut {link} 9"),
            5 => "root free 2 0 0 0".into(),
            _ => format!("filljac {link} 0 0 nan"),
        };
        self.refused_line(1, &line);
        self.accepted_line(&format!("short {TABLES}\nfull\nshort {}", u32::MAX));
        let n = self.shape.dofs();
        if n > 0 {
            self.accepted_line(&format!("short_rows {}", n - 1));
            self.refused_line(1, &format!("view acc {link}"));
            self.accepted_line(&format!("short_rows {n}\nview acc {link}\nshort_rows 48"));
        }
    }

    /// An arm that no accepted call makes, handed in and mended again.
    fn broken_arm(&mut self) {
        let (links, couplings) = (self.shape.links.len(), self.shape.couplings.len());
        let link = self.some_link();
        let (old, root) = (self.shape.links[link], self.shape.links[0]);
        let (number, broken, mended) = match self.hand.rng.below(5) {
            0 => (2, "links 17".into(), format!("links {links}")),
            1 => (2, "couplings 9".into(), format!("couplings {couplings}")),
            2 if link > 0 => (3, format!("tag {link} {}", root.tag), format!("tag {link} {}", old.tag)),
            3 => (
                4,
                format!("parent {link} {}", link.max(1)),
                format!("parent {link} {}", old.parent),
            ),
            _ => (5, format!("locked {link} 8"), format!("locked {link} {}", old.locked)),
        };
        self.accepted_line(&format!("poke {broken}"));
        for _ in 0..self.hand.rng.between(1, 3) {
            let line = match self.hand.rng.below(8) {
                0 => "full".into(),
                1 => "step nan".into(),
                2 => "root free 2 0 0 0".into(),
                3 => format!("branch {link}"),
                4 => format!("split cut {link}"),
                5 => format!("part cut {link} 0"),
                6 => format!("com {link} nan 0"),
                _ => format!("spring {link} 0 nan 0"),
            };
            self.refused_line(number, &line);
        }
        self.accepted_line(&format!("poke {mended}"));
    }
}
