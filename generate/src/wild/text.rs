//! Lines at the borders of what can be read, and past them.

use super::author::Author;
use crate::spelling::{decimal, no_float};
use script::MOST_LINE;

impl Author {
    /// A line of text of any kind.
    pub fn write_text(&mut self) {
        let rng = &mut self.hand.rng;
        match rng.weighted(&[240, 56, 40, 40, 24, 1]) {
            0 => {
                self.spoils = true;
                self.write_any();
                self.spoils = false;
            }
            1 => self.write_fixed_text(),
            2 => self.write_nothing(),
            3 => {
                let name = rng.pick(&["rot", "poke table 2304", "solve", "poke coordinate 3 1"]);
                let word = decimal(rng);
                self.say(format!("{name} {word}"));
            }
            4 => {
                let name = rng.pick(&["rot", "step", "solve", "poke table 5", "mass 1"]);
                let word = no_float(rng);
                self.say(format!("{name} {word}"));
            }
            _ => self.write_long(),
        }
    }

    /// Lines that each name one border.
    fn write_fixed_text(&mut self) {
        let line: &str = self.hand.rng.pick(&[
            "poke links 255",
            "poke links 256",
            "poke couplings 256",
            "poke tag 16 1",
            "poke tag 15 4294967295",
            "poke tag 0 4294967296",
            "poke parent 16 0",
            "poke parent 1 256",
            "poke locked 16 7",
            "poke locked 0 256",
            "poke limit 16 0",
            "poke limit 0 256",
            "poke motor 16 0",
            "poke motor 1 256",
            "poke coordinate 16 0 0",
            "poke coordinate 0 3 0",
            "poke coordinate 0 0",
            "poke rotation 16 1 0",
            "poke rotation 0 1",
            "poke pose 16 1 0 0 0",
            "poke pose 0 1 0 0",
            "poke coupling 8 0 0 0 0",
            "poke coupling 0 256 0 0 0",
            "poke coupling 0 0 256 0 0",
            "poke coupling 0 0 0 256 0",
            "poke coupling 0 0 0 0 256",
            "poke table 2320 0",
            "poke table 2319 x4b4b4b4b",
            "poke table 4294967295 0",
            "poke",
            "poke link 1",
            "poke frame1 0 1 0 0 0",
            "poke com 0 0 0",
            "poke links",
            "poke links 3 3",
            "poke row 0 0",
            "poke Links 3",
            "mass",
            "mass 49",
            "mass 0",
            "mass 0 1",
            "mass 1",
            "mass 1 5",
            "mass 2 1 0 0",
            "mass 2 1 0 0 1 0",
            "mass -1",
            "mass 4294967295",
            "mass 65537 1",
            "view",
            "view vel",
            "view fric 0",
            "view damp 0",
            "view Vel 0",
            "view 0 vel",
            "row velocity 0 0 1",
            "row 0 0 1",
            "row vel 0 0",
            "root",
            "root free",
            "root Free 1 0 0 0",
            "root 0 1 0 0 0",
            "root free 1 0 0",
            "root fixed 1 0 0 0 0",
            "split",
            "split remove 0",
            "split 0 delete",
            "part delete 0",
            "part cut 0 0 0",
            "part cut",
            "new 1",
            "empty 0",
            "full full",
            "dump 0",
            "kin 0",
            "check 0",
            "short",
            "short -1",
            "short 4294967296",
            "short 1.0",
            "short_rows",
            "short_out",
            "short_rows 1 2",
            "short_out nan",
            "jmul",
            "jmul x",
            "jmul 0 1 x",
            "starts -1",
            "starts 4294967296",
            "starts 7 7 nan",
            "solve nan",
            "solve 1 2 x",
            "masks",
            "masks 7 7",
            "masks 1 2 3 4",
            "rot",
            "rot 1 2",
            "limit 0 0 0 0 0 0 0",
            "friction 0 0 0",
            "filljac 0 0 0",
            "filljac 0 0 0 0 0",
            "branch",
            "branch 0 0",
            "spring_of 0",
            "spring 0 0 0",
            "coupling 0 0 0 0 0",
            "step",
            "ok",
            "refused 1",
            "unreadable",
            "?",
            "\u{feff}new",
            "new\r",
            "new\t",
            "\tnew",
            "new #",
            "new # comment",
            "x3f800000",
            "link 1 0 7 0 0 1 0 0 0 1 0 0 0 0",
            "link 1 0 7 0 0 1 0 0 0 1 0 0 0 0 0 0",
        ]);
        self.line(line);
    }

    /// A line that is passed over.
    fn write_nothing(&mut self) {
        let line: &[u8] = self.hand.rng.pick(&[
            b"",
            b" ",
            b"     ",
            b"#",
            b"# new",
            b"#new",
            b"##",
            b"#\xFF\x00",
            b" # no comment",
            b" #",
        ]);
        self.say(line);
    }

    /// A line around the longest, or much longer.
    fn write_long(&mut self) {
        let length = MOST_LINE + self.hand.rng.pick(&[0, 0, 1, 1, 2, 1000]);
        let name = self
            .hand
            .rng
            .pick(&["dump", "check", "new", "rot 1", "masks 0 0 0", "poke links 3"]);
        let filled = |begin: &str, filler: &str| {
            let mut line = begin.to_string();
            line.extend(filler.chars().cycle().take(length - begin.len()));
            line
        };
        let line = match self.hand.rng.below(9) {
            0 => filled(name, " "),
            1 => format!("{}{name}", " ".repeat(length - name.len())),
            2 => filled("#", "x"),
            3 => filled("", " "),
            4 => filled("starts", " 7"),
            5 => filled("rot ", "0"),
            6 => filled("solve", " 1"),
            7 => filled("short_rows ", "0"),
            _ => filled("x", "y"),
        };
        self.say(line);
    }
}
