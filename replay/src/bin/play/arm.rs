//! An arm as `dump` and `kin` print it.

use crate::answer::{Answer, decimal, float};
use script::limits::DOFS;

/// The words before a block's columns.
const BEFORE_COLUMNS: usize = 4;

/// A link: its words after the number, as `dump` prints them.
struct Link {
    words: Vec<String>,
}

impl Link {
    fn word(&self, at: usize) -> &str {
        self.words.get(at).map_or("", String::as_str)
    }

    fn tag(&self) -> &str {
        self.word(1)
    }

    fn parent(&self) -> usize {
        self.word(3).parse().unwrap_or(0)
    }

    fn locked(&self) -> u8 {
        self.word(7).parse().unwrap_or(0)
    }

    /// Its free axes, each with its coordinate.
    fn axes(&self) -> String {
        let coordinates = self.words.iter().skip_while(|word| *word != "coords").skip(1);
        let free: Vec<String> = ["x", "y", "angle"]
            .iter()
            .zip(coordinates)
            .enumerate()
            .filter(|(axis, _)| self.locked() >> axis & 1 == 0)
            .map(|(_, (name, coordinate))| format!("{name} {}", decimal(coordinate)))
            .collect();
        match free.is_empty() {
            true => String::from("fixed"),
            false => free.join(", "),
        }
    }
}

/// What is kept of a link: its pose, and all the words of its pose, shifts and block.
struct Kept {
    pose: Vec<String>,
    all: Vec<String>,
}

pub struct Arm {
    links: Vec<Link>,
    kept: Vec<Kept>,
    /// Everything that was printed.
    printed: Vec<Vec<String>>,
}

/// The lines whose first word is this, without it.
fn lines_of<'a>(answer: &'a Answer, first: &'a str) -> impl Iterator<Item = &'a [String]> {
    answer
        .lines
        .iter()
        .filter(move |line| line.first().is_some_and(|word| word == first))
        .map(|line| &line[1..])
}

fn kept_of(kin: &Answer, pose: &[String]) -> Kept {
    let number = &pose[..1];
    let lines = kin.lines.iter().filter(|line| line[1..].starts_with(number));
    Kept {
        pose: pose[1..].to_vec(),
        all: lines.flat_map(|line| widened(line)).collect(),
    }
}

/// A line of a block with all its columns, those included that no link uses; any other line as it is.
fn widened(line: &[String]) -> Vec<String> {
    let mut words = line.to_vec();
    if words[0] == "jac" {
        words.resize(BEFORE_COLUMNS + DOFS, String::from("00000000"));
    }
    words
}

impl Arm {
    pub fn read(dump: &Answer, kin: &Answer) -> Arm {
        Arm {
            links: lines_of(dump, "link")
                .map(|words| Link {
                    words: words[1..].to_vec(),
                })
                .collect(),
            kept: lines_of(kin, "pose").map(|pose| kept_of(kin, pose)).collect(),
            printed: dump.lines.iter().chain(&kin.lines).cloned().collect(),
        }
    }

    /// Are both the same in every bit that is printed?
    pub fn is(&self, other: &Arm) -> bool {
        self.printed == other.printed
    }

    /// The links of both arms, apart by whether what is kept of them differs in any bit.
    pub fn moved(&self, after: &Arm) -> (Vec<usize>, Vec<usize>) {
        (0..after.kept.len()).partition(|&i| self.kept.get(i).is_none_or(|kept| kept.all != after.kept[i].all))
    }

    pub fn link_count(&self) -> usize {
        self.links.len()
    }

    /// The links as a tree, each under its parent.
    pub fn tree(&self) -> String {
        let mut text = String::new();
        if !self.links.is_empty() {
            self.branch(0, 0, &mut text);
        }
        text
    }

    fn branch(&self, link: usize, depth: usize, text: &mut String) {
        let l = &self.links[link];
        let indent = "   ".repeat(depth);
        text.push_str(&format!("    {indent}{link}: tag {}, {}\n", l.tag(), l.axes()));
        for child in (link + 1)..self.links.len() {
            if self.links[child].parent() == link {
                self.branch(child, depth + 1, text);
            }
        }
    }

    /// Each link's place and heading.
    pub fn poses(&self) -> String {
        let mut text = String::from("    link         x         y   degrees\n");
        for (i, kept) in self.kept.iter().enumerate() {
            let [re, im, x, y] = kept.pose.as_slice() else {
                continue;
            };
            let degrees = float(im).atan2(float(re)).to_degrees();
            text.push_str(&format!(
                "    {i:>4} {:>9.4} {:>9.4} {degrees:>9.2}\n",
                float(x),
                float(y)
            ));
        }
        text
    }
}
