//! What each word of an answer must be.

use crate::class::{Class, Place, Rule, float, places};
use std::fmt;

/// Why a value isn't compared.
#[derive(Clone, Copy, Debug, PartialEq, Eq, PartialOrd, Ord)]
pub enum Reason {
    RootShift23,
    HeadShift02,
    UnderRootShift23,
    IllConditioned,
}

impl Reason {
    pub const ALL: [Reason; 4] = [
        Reason::RootShift23,
        Reason::HeadShift02,
        Reason::UnderRootShift23,
        Reason::IllConditioned,
    ];

    pub fn words(self) -> &'static str {
        match self {
            Reason::RootShift23 => "a root's shift23, which the crate never writes",
            Reason::HeadShift02 => "a head's shift02, which the crate keeps from before the split",
            Reason::UnderRootShift23 => {
                "what follows from a free root's shift23 that the crate lacks: the column of its angle, j there, wj and the sums"
            }
            Reason::IllConditioned => {
                "what rounding alone may have made: of a matrix near a singular one, of a divisor near zero"
            }
        }
    }

    /// As the stored list has it.
    fn letter(self) -> char {
        match self {
            Reason::RootShift23 => 'r',
            Reason::HeadShift02 => 'h',
            Reason::UnderRootShift23 => 'u',
            Reason::IllConditioned => 'i',
        }
    }
}

#[derive(Clone, Copy, Debug, PartialEq)]
pub enum Expected<'a> {
    /// This word.
    Word(&'a str),
    /// This value by its class's rule; `size` is what a share is taken of.
    Value {
        value: f32,
        size: f32,
    },
    LeftOut(Reason),
}

impl Expected<'_> {
    /// What a word of the stored list asks for.
    pub fn of_stored(class: Class, word: &str) -> Expected<'_> {
        if class.rule() == Rule::Exact {
            return Expected::Word(word);
        }
        let left_out = |reason: &Reason| {
            word.strip_prefix('-')
                .is_some_and(|rest| rest.chars().eq([reason.letter()]))
        };
        if let Some(reason) = Reason::ALL.into_iter().find(left_out) {
            return Expected::LeftOut(reason);
        }
        let (value, size) = word.split_once('/').unwrap_or((word, word));
        match (float(value), float(size)) {
            (Some(value), Some(size)) => Expected::Value {
                value,
                size: size.abs(),
            },
            _ => Expected::Word(word),
        }
    }
}

/// As the stored list has it: a value's size stands behind it where it isn't the value's own.
impl fmt::Display for Expected<'_> {
    fn fmt(&self, f: &mut fmt::Formatter) -> fmt::Result {
        match self {
            Expected::Word(word) => f.write_str(word),
            Expected::LeftOut(reason) => write!(f, "-{}", reason.letter()),
            Expected::Value { value, size } if *size == value.abs() => write!(f, "{:08x}", value.to_bits()),
            Expected::Value { value, size } => write!(f, "{:08x}/{:08x}", value.to_bits(), size.to_bits()),
        }
    }
}

/// What a stored line asks for, word by word.
pub fn of_stored_line(line: &str) -> impl Iterator<Item = (Place<'_>, Expected<'_>)> {
    places(line).map(|(word, place)| (place, Expected::of_stored(place.class, word)))
}
