//! Makes the stored list: scripts, with the answer that is expected behind each command.
//!
//! No answer comes from the library: values are the crate's, its root's shifts given by 01; refusals are the generator's. Of a command that may
//! overflow, the crate's own results say whether it is clear of that; it is left out where it isn't.

use super::session::Session;
use crate::class::{Class, float, places};
use crate::expected::Expected as Word;
use crate::report::counts;
use crate::stored::{ANSWER, compare, right_output};
use generate::answers::is_status;
use generate::families::{self, Expected, Family};
use script::{Command, Line, read};
use std::fmt::Write;
use std::io;
use std::path::Path;

/// Scripts from one seed.
struct Choice {
    family: Family,
    seed: u64,
    scripts: usize,
    /// Links that a script adds, at least.
    links: usize,
    size: Size,
}

/// How much of a script is stored.
struct Size {
    /// A script ends once it has so many bytes with its answers.
    script: usize,
    /// A question or a matrix that has more is left out.
    command: usize,
    /// And a `dump` or `kin` that has fewer commands between itself and the one before.
    apart: usize,
}

const SHORT: Size = Size {
    script: 3_800,
    command: 1_500,
    apart: 8,
};

const LONG: Size = Size {
    script: 16_000,
    command: 16_000,
    apart: 16,
};

const WHOLE: Size = Size {
    script: usize::MAX,
    command: usize::MAX,
    apart: 0,
};

const fn short(family: Family) -> Choice {
    Choice {
        family,
        seed: 1,
        scripts: 48,
        links: 1,
        size: SHORT,
    }
}

const fn long(family: Family) -> Choice {
    Choice {
        family,
        seed: 2,
        scripts: 2,
        links: 16,
        size: LONG,
    }
}

const CHOICES: [Choice; 8] = [
    short(Family::PlainRoot),
    long(Family::PlainRoot),
    short(Family::AnyRoot),
    long(Family::AnyRoot),
    short(Family::Outside),
    long(Family::Outside),
    short(Family::Refusals),
    long(Family::Refusals),
];

/// The largest float of a result that is clear of overflow, and the largest angle coordinate.
const LARGEST: f32 = 1.0e30;
const LARGEST_ANGLE: f32 = 256.0;

/// How far machines may part, of max(1, |x|).
const LAST_BITS: f32 = 0.000_01;

/// The least pivot of a matrix that is clear of being singular.
const LEAST_PIVOT: f64 = 0.001;

/// A file's ending and its text.
pub type File = (&'static str, String);

/// The list, which begins with these scripts, and its counts.
pub fn files(first: &[&str]) -> [File; 2] {
    let mut list: String = first.iter().map(|script| with_answers(script, &WHOLE)).collect();
    for choice in &CHOICES {
        let scripts = (0..).map(|number| families::script(choice.seed, number, Some(choice.family)));
        let chosen = scripts
            .filter(|script| script.matches("\nlink ").count() >= choice.links)
            .map(|script| with_answers(&script, &choice.size));
        list.extend(chosen.take(choice.scripts));
    }
    let counts = counts(&compare(&list, &right_output(&list), true));
    [("script", list), ("counts", counts)]
}

/// Writes the files beside each other.
///
/// # Errors
/// They can't be written.
pub fn write(files: &[File], path: &Path) -> io::Result<()> {
    files
        .iter()
        .try_for_each(|(ending, text)| std::fs::write(path.with_extension(ending), text))
}

/// Whether the files stand there, but for the last bits of sines and cosines, which are the machine's.
pub fn stands_in(files: &[File], path: &Path) -> bool {
    files.iter().all(|(ending, text)| {
        let found = std::fs::read_to_string(path.with_extension(ending)).unwrap_or_default();
        let [ours, theirs] = [text, &found].map(|text| text.split_inclusive([' ', '\n', '/']));
        ours.clone().count() == theirs.clone().count() && ours.zip(theirs).all(|(word, other)| is_alike(word, other))
    })
}

fn is_alike(word: &str, other: &str) -> bool {
    let value = |word: &str| float(word.trim_end_matches([' ', '\n', '/']));
    word == other
        || match (value(word), value(other)) {
            (Some(x), Some(y)) => (x - y).abs() <= LAST_BITS * x.abs().max(1.0),
            _ => false,
        }
}

/// A script with its answers, as comments.
fn with_answers(script: &str, size: &Size) -> String {
    let mut teller = Teller {
        session: Session::new(true),
        mass: Some(vec![]),
        size,
        since: [size.apart; 2],
    };
    let (mut out, mut expected) = (String::new(), Expected::Accepted);
    for line in script.lines() {
        match read(line.as_bytes()) {
            Line::Nothing => match Expected::of_comment(line) {
                Some(said) => expected = said,
                None => out += &format!("{line}\n"),
            },
            Line::Unreadable => unreachable!("the generator writes what can be read: {line}"),
            Line::Command(command) => {
                let said = std::mem::replace(&mut expected, Expected::Accepted);
                if let Some(answer) = teller.answer(line, &command, said) {
                    out += &format!("{line}\n");
                    answer.lines().for_each(|line| out += &format!("{ANSWER}{line}\n"));
                }
            }
        }
        if out.len() >= size.script {
            break;
        }
    }
    out
}

/// What is expected of one command after another.
struct Teller<'a> {
    session: Session,
    /// The mass matrix; none where it was left out.
    mass: Option<Vec<f32>>,
    size: &'a Size,
    /// Commands since the last `dump` and the last `kin`.
    since: [usize; 2],
}

impl Teller<'_> {
    /// The expected answer; none where the command is left out.
    fn answer(&mut self, line: &str, command: &Command, expected: Expected) -> Option<String> {
        if let Command::Mass { matrix } = command {
            self.mass = (line.len() <= self.size.command).then(|| matrix.clone());
        }
        if needs_mass(command) && self.mass.is_none() || !self.is_due(command) {
            return None;
        }
        if let Expected::Refused(refusal) = expected {
            return Some(format!("refused {refusal}\n"));
        }
        let before = self.session.clone();
        let answer = self.session.answer(command);
        if expected == Expected::Either && !self.is_clear(command, &answer) {
            self.session = before;
            return None;
        }
        let answer = match (command, answer.lines().next()) {
            (_, Some("ok")) => self.with_sizes(&answer),
            // 01 alone says what these give.
            (Command::Check, _) => "ok\ncheck spare 0 past 0\n".into(),
            (Command::Poke(_), Some("unasked")) => "ok\n".into(),
            _ => panic!("the crate can't answer {line}: {answer}"),
        };
        // Only what changes nothing has more than its status.
        (answer.len() <= self.size.command).then_some(answer)
    }

    /// The crate's answer as it is stored.
    fn with_sizes(&self, answer: &str) -> String {
        let facts = self.session.facts();
        let mut out = String::new();
        for line in answer.lines() {
            let words: Vec<Word> = match is_status(line) {
                true => vec![Word::Word(line)],
                false => facts.expected(line).map(|(_, word)| word).collect(),
            };
            for (at, word) in words.iter().enumerate() {
                let space = if at > 0 { " " } else { "" };
                write!(out, "{space}{word}").expect("memory can be written");
            }
            out.push('\n');
        }
        out
    }

    /// Whether a look comes late enough after the one before.
    fn is_due(&mut self, command: &Command) -> bool {
        let looks = [matches!(command, Command::Dump), matches!(command, Command::Kin)];
        let due = looks
            .iter()
            .zip(self.since)
            .all(|(look, since)| !look || since >= self.size.apart);
        for (since, look) in self.since.iter_mut().zip(looks) {
            *since = if look && due { 0 } else { *since + 1 };
        }
        due
    }

    /// Whether a command is clear of being refused.
    fn is_clear(&mut self, command: &Command, answer: &str) -> bool {
        let regular = !needs_mass(command) || self.mass.as_deref().is_some_and(is_regular);
        let kept = [Command::Dump, Command::Kin].map(|look| self.session.answer(&look));
        regular && is_moderate(answer) && kept.iter().all(|look| is_moderate(look))
    }
}

/// A matrix, or what is worked out with one.
fn needs_mass(command: &Command) -> bool {
    use Command::{Filljac, Friction, Limit, Mass, Solve};
    matches!(
        command,
        Mass { .. } | Solve { .. } | Limit { .. } | Friction { .. } | Filljac { .. }
    )
}

fn is_moderate(answer: &str) -> bool {
    answer
        .lines()
        .flat_map(places)
        .all(|(word, place)| match (place.class, float(word)) {
            (Class::LimitBounds, _) | (_, None) => true,
            (Class::AngleCoordinates, Some(value)) => value.abs() <= LARGEST_ANGLE,
            (_, Some(value)) => value.abs() <= LARGEST,
        })
}

fn is_regular(matrix: &[f32]) -> bool {
    let n = matrix.len().isqrt();
    let mut rows: Vec<Vec<f64>> = matrix
        .chunks(n.max(1))
        .map(|row| row.iter().map(|x| f64::from(*x)).collect())
        .collect();
    (0..n).all(|column| {
        let size = |row: &Vec<f64>| row[column].abs();
        let pivot = (column..n).max_by(|a, b| size(&rows[*a]).total_cmp(&size(&rows[*b])));
        rows.swap(column, pivot.unwrap_or(column));
        let pivot = rows[column].clone();
        for row in &mut rows[column + 1..] {
            let factor = row[column] / pivot[column];
            row.iter_mut().zip(&pivot).for_each(|(x, p)| *x -= factor * p);
        }
        size(&pivot) > LEAST_PIVOT
    })
}
