//! Answers compared with what they must be.

use crate::class::{Class, Place, Rule, float};
use crate::expected::{Expected, Reason};
use std::collections::BTreeMap;

/// Of one class: how many values were compared, and what came of it.
#[derive(Clone, Copy, Debug, Default)]
pub struct Count {
    pub values: u64,
    pub same_bits: u64,
    pub differences: u64,
    pub left_out: u64,
    /// The largest share of the tolerance that a difference within it takes.
    pub worst: f32,
}

#[derive(Clone, Debug)]
pub struct Difference {
    pub script: u64,
    pub line: usize,
    pub command: String,
    pub class: Class,
    pub what: String,
}

#[derive(Clone, Debug, Default)]
pub struct Comparison {
    pub counts: BTreeMap<Class, Count>,
    pub left_out: BTreeMap<Reason, u64>,
    pub differences: Vec<Difference>,
    /// Scripts by their family's letter.
    pub scripts: BTreeMap<char, u64>,
    pub commands: u64,
    pub refused: BTreeMap<u8, u64>,
    /// Commands that the crate can't be asked, but for `check`.
    pub unasked: u64,
    /// Commands that come after a difference in what is accepted.
    pub abandoned: u64,
}

/// Where an answer stands.
#[derive(Clone, Copy)]
pub struct Asked<'a> {
    pub script: u64,
    pub line: usize,
    pub command: &'a str,
}

const KEPT_DIFFERENCES: usize = 100;

impl Comparison {
    /// Counts a value that had to be the same; a difference is kept with its place.
    pub fn judge(&mut self, asked: &Asked, class: Class, same: bool, what: impl FnOnce() -> String) {
        let count = self.counts.entry(class).or_default();
        count.values += 1;
        count.same_bits += u64::from(same);
        if !same {
            self.differ(asked, class, what());
        }
    }

    fn differ(&mut self, asked: &Asked, class: Class, what: String) {
        self.counts.entry(class).or_default().differences += 1;
        if self.differences.len() < KEPT_DIFFERENCES {
            self.differences.push(Difference {
                script: asked.script,
                line: asked.line,
                command: asked.command.chars().take(200).collect(),
                class,
                what,
            });
        }
    }

    /// Whether a command was accepted or refused as it must be.
    pub fn status(&mut self, asked: &Asked, status: &str, as_scripted: bool) {
        self.commands += 1;
        if let Some(number) = status.strip_prefix("refused ") {
            *self.refused.entry(number.parse().unwrap_or(0)).or_default() += 1;
        }
        self.judge(asked, Class::Refusals, as_scripted, || status.to_string());
    }

    /// The lines of an answer, of which `expected` says what each must be.
    pub fn lines<'a, 'e, E>(&mut self, asked: &Asked, ours: &[&str], expected: &[&'e str], words: impl Fn(&'e str) -> E)
    where
        E: Iterator<Item = (Place<'a>, Expected<'a>)>,
    {
        let same = ours.len() == expected.len();
        self.judge(asked, Class::Form, same, || {
            format!("{} lines, not {}", ours.len(), expected.len())
        });
        if same {
            for (ours, expected) in ours.iter().zip(expected) {
                self.line(asked, ours, expected, words(expected));
            }
        }
    }

    fn line<'a>(
        &mut self,
        asked: &Asked,
        ours: &str,
        expected: &str,
        words: impl Iterator<Item = (Place<'a>, Expected<'a>)>,
    ) {
        let spaces = |line: &str| line.bytes().filter(|&byte| byte == b' ').count();
        if spaces(ours) != spaces(expected) {
            return self.judge(asked, Class::Form, false, || format!("{ours} | {expected}"));
        }
        for (word, (place, expected)) in ours.split(' ').zip(words) {
            self.word(asked, word, place, expected);
        }
    }

    fn word(&mut self, asked: &Asked, word: &str, place: Place, expected: Expected) {
        let at = |what: String| format!("{} word {}: {what}", place.keyword, place.after);
        match expected {
            Expected::Word(other) => {
                self.judge(asked, place.class, word == other, || at(format!("{word}, not {other}")))
            }
            Expected::LeftOut(reason) => {
                *self.left_out.entry(reason).or_default() += 1;
                self.counts.entry(place.class).or_default().left_out += 1;
            }
            Expected::Value { value, size } => match float(word) {
                None => self.judge(asked, place.class, false, || at(format!("{word} is no float"))),
                Some(ours) => match share(place.class.rule(), ours, value, size) {
                    Some(share) => {
                        let count = self.counts.entry(place.class).or_default();
                        count.values += 1;
                        count.same_bits += u64::from(ours.to_bits() == value.to_bits());
                        count.worst = count.worst.max(share);
                    }
                    None => self.judge(asked, place.class, false, || at(format!("{ours:e}, not {value:e}"))),
                },
            },
        }
    }

    /// Whether a program's answers end where those to a script do, and the program ends well.
    pub fn end(&mut self, script: u64, no_more: bool, ended_well: bool) {
        let asked = Asked {
            script,
            line: 0,
            command: "the end of the answers",
        };
        for (held, what) in [
            (no_more, "more answers than commands"),
            (ended_well, "the program failed"),
        ] {
            self.judge(&asked, Class::Form, held, || what.to_string());
        }
    }

    /// All differences, the kept ones and the others.
    pub fn found(&self) -> u64 {
        self.counts.values().map(|count| count.differences).sum()
    }

    pub fn add(&mut self, other: Comparison) {
        for (class, more) in other.counts {
            let count = self.counts.entry(class).or_default();
            count.values += more.values;
            count.same_bits += more.same_bits;
            count.differences += more.differences;
            count.left_out += more.left_out;
            count.worst = count.worst.max(more.worst);
        }
        add_each(&mut self.left_out, other.left_out);
        add_each(&mut self.refused, other.refused);
        add_each(&mut self.scripts, other.scripts);
        self.commands += other.commands;
        self.unasked += other.unasked;
        self.abandoned += other.abandoned;
        self.differences.extend(other.differences);
    }
}

fn add_each<K: Ord>(counts: &mut BTreeMap<K, u64>, more: BTreeMap<K, u64>) {
    for (key, count) in more {
        *counts.entry(key).or_default() += count;
    }
}

/// How much of the tolerance a value takes; `None` where it is more than that.
fn share(rule: Rule, ours: f32, value: f32, size: f32) -> Option<f32> {
    let off = (f64::from(ours) - f64::from(value)).abs();
    let tolerance = match rule {
        Rule::Exact => return (ours.to_bits() == value.to_bits()).then_some(0.0),
        Rule::Number => return (ours == value).then_some(0.0),
        Rule::Within(most) => f64::from(most),
        Rule::Share(part) => f64::from(part) * f64::from(size.abs().max(1.0)),
    };
    (off <= tolerance).then_some((off / tolerance) as f32)
}
