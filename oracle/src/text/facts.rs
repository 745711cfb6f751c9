//! What the comparer has to know beside an answer of the crate, all of it from the script and the crate.

use crate::class::{Class, Place, Rule, float, places};
use crate::expected::{Expected, Reason};

/// The column of a free root's angle: its DoFs come first.
const ROOT_ANGLE: usize = 2;
/// In a line of a Jacobian: the words before its entries.
const BEFORE_ENTRIES: usize = 3;

/// What a share is taken of, at least, for the values of the last question; `None` where they say nothing.
#[derive(Clone, Copy, Debug)]
pub struct Sizes {
    pub solution: Option<f64>,
    pub filled: f64,
    pub sums: Option<[f64; 2]>,
    pub gain: Option<f64>,
    pub inv_lhs: Option<f64>,
}

impl Default for Sizes {
    fn default() -> Sizes {
        Sizes {
            solution: Some(1.0),
            filled: 1.0,
            sums: Some([1.0; 2]),
            gain: Some(1.0),
            inv_lhs: Some(1.0),
        }
    }
}

#[derive(Clone, Debug)]
pub struct Facts {
    /// Whether the root's shift02 and shift23 in the crate are other than document 01's.
    pub root_shifts_part: [bool; 2],
    pub root_is_free: bool,
    /// The unit in which the arm's lengths are at most 1.
    pub unit: f64,
    /// Of each DoF, whether it is an angle's.
    pub turns: Vec<bool>,
    pub sizes: Sizes,
}

impl Facts {
    /// What each word of a line that the crate answers asks for.
    pub fn expected<'a>(&self, line: &'a str) -> impl Iterator<Item = (Place<'a>, Expected<'a>)> {
        let mut words = line.split(' ').skip(1);
        let is_root = words.next() == Some("0");
        let is_straight_row = line.starts_with("jac") && words.nth(1) != Some("2");
        places(line).map(move |(word, place)| {
            let expected = match float(word) {
                Some(value) if place.class.rule() != Rule::Exact => self.value(value, &place, is_root, is_straight_row),
                _ => Expected::Word(word),
            };
            (place, expected)
        })
    }

    fn value(&self, value: f32, place: &Place, is_root: bool, is_straight_row: bool) -> Expected<'static> {
        if let Some(reason) = self.left_out(place, is_root, is_straight_row) {
            return Expected::LeftOut(reason);
        }
        match self.size(place, is_straight_row) {
            None => Expected::LeftOut(Reason::IllConditioned),
            Some(size) => Expected::Value {
                value,
                size: if size <= 1.0 {
                    value.abs()
                } else {
                    value.abs().max(size as f32)
                },
            },
        }
    }

    /// Why a value of the crate isn't 01's.
    fn left_out(&self, place: &Place, is_root: bool, is_straight_row: bool) -> Option<Reason> {
        let [shift02_parts, shift23_parts] = self.root_shifts_part;
        let under = self.root_is_free && shift23_parts;
        match (place.class, place.keyword, place.after) {
            (Class::Shifts, _, 1 | 2) if is_root && shift02_parts => Some(Reason::HeadShift02),
            (Class::Shifts, _, 3 | 4) if is_root && shift23_parts => Some(Reason::RootShift23),
            (Class::Jacobians, _, at) if under && is_straight_row && at == BEFORE_ENTRIES + ROOT_ANGLE => {
                Some(Reason::UnderRootShift23)
            }
            (Class::Filled, "j", ROOT_ANGLE) | (Class::Filled, "wj", _) | (Class::Sums, ..) if under => {
                Some(Reason::UnderRootShift23)
            }
            _ => None,
        }
    }

    /// What a share is taken of, at least.
    fn size(&self, place: &Place, is_straight_row: bool) -> Option<f64> {
        match (place.class, place.keyword, place.after) {
            // The rotation of a pose knows no length.
            (Class::RootFrames, _, 2..) | (Class::Poses, _, 3..) | (Class::Shifts, ..) => Some(self.unit),
            (Class::Jacobians, _, at) if is_straight_row && self.turns.get(at - BEFORE_ENTRIES) == Some(&true) => {
                Some(self.unit)
            }
            (Class::Filled, "j", _) => Some(self.sizes.filled),
            (Class::Filled, ..) | (Class::Solves, ..) => self.sizes.solution,
            (Class::Sums, _, at) => self.sizes.sums.map(|sums| sums[at]),
            (Class::RowResults, "cfm_gain", _) => self.sizes.gain,
            (Class::RowResults, "inv_lhs", _) => self.sizes.inv_lhs,
            _ => Some(1.0),
        }
    }
}
