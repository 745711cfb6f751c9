//! Refusals, by the numbers of document 01.

use crate::abi::Counted;
use std::error::Error;
use std::fmt;

/// Why a call was refused. Of several that apply it is the lowest, and nothing is changed.
#[derive(Clone, Copy, Debug, PartialEq, Eq, PartialOrd, Ord, Hash)]
#[non_exhaustive]
pub enum Refusal {
    /// 1: lent memory is shorter than needed.
    ShortMemory,
    /// 2: a list is full, or what is handed in counts more than fits.
    TooMany,
    /// 3: the tag is already in the arm.
    TagTaken,
    /// 4: no such link, by its number or by its tag; or a parent that does not come before its link.
    NoSuchLink,
    /// 5: a mask above 7, an axis above 2, or a root mask other than 7 or 0.
    BadMask,
    /// 6: the axis is locked.
    AxisLocked,
    /// 7: a float that is given or read is not finite.
    NotFinite,
    /// 8: a given rotation is not of unit length.
    NoRotation,
    /// 9: an angle beyond 256 either way.
    AngleTooFar,
    /// 10: a pair of bounds the wrong way round.
    BoundsReversed,
    /// 11: the matrix is singular.
    Singular,
    /// 12: a result is not finite.
    ResultNotFinite,
    /// A number that this crate does not know.
    Unknown(u8),
    /// 255: the linked archive is of another version or layout than this crate is for. Every call is refused by it, and no function of the archive is run.
    WrongArchive,
}

/// Every refusal that has a number of its own.
const KNOWN: [Refusal; 13] = [
    Refusal::ShortMemory,
    Refusal::TooMany,
    Refusal::TagTaken,
    Refusal::NoSuchLink,
    Refusal::BadMask,
    Refusal::AxisLocked,
    Refusal::NotFinite,
    Refusal::NoRotation,
    Refusal::AngleTooFar,
    Refusal::BoundsReversed,
    Refusal::Singular,
    Refusal::ResultNotFinite,
    Refusal::WrongArchive,
];

impl Refusal {
    /// The refusal of a number, as the answers of [`ffi`](crate::ffi) have it: 0 is none.
    #[must_use]
    pub fn from_number(number: u8) -> Option<Refusal> {
        let known = KNOWN.into_iter().find(|refusal| refusal.number() == number);
        match number {
            0 => None,
            _ => known.or(Some(Refusal::Unknown(number))),
        }
    }

    /// Its number.
    #[must_use]
    pub const fn number(self) -> u8 {
        self.row().0
    }

    /// When it is given.
    #[must_use]
    pub const fn reason(self) -> &'static str {
        self.row().1
    }

    const fn row(self) -> (u8, &'static str) {
        match self {
            Refusal::ShortMemory => (1, "lent memory is shorter than needed"),
            Refusal::TooMany => (2, "a list is full, or what is handed in counts more than fits"),
            Refusal::TagTaken => (3, "the tag is already in the arm"),
            Refusal::NoSuchLink => (4, "no such link, or a parent that does not come before its link"),
            Refusal::BadMask => (5, "a mask above 7, an axis above 2, or a root mask other than 7 or 0"),
            Refusal::AxisLocked => (6, "the axis is locked"),
            Refusal::NotFinite => (7, "a float that is given or read is not finite"),
            Refusal::NoRotation => (8, "a given rotation is not of unit length"),
            Refusal::AngleTooFar => (9, "an angle beyond 256 either way"),
            Refusal::BoundsReversed => (10, "a pair of bounds the wrong way round"),
            Refusal::Singular => (11, "the matrix is singular"),
            Refusal::ResultNotFinite => (12, "a result is not finite"),
            Refusal::Unknown(number) => (number, "a number that this crate does not know"),
            Refusal::WrongArchive => (255, "the linked archive is of another version or layout"),
        }
    }
}

impl fmt::Display for Refusal {
    fn fmt(&self, f: &mut fmt::Formatter<'_>) -> fmt::Result {
        write!(f, "refused with {}: {}", self.number(), self.reason())
    }
}

impl Error for Refusal {}

/// What a refusal's number says, where 0 is none.
pub(crate) fn refused(number: u8) -> Result<(), Refusal> {
    Refusal::from_number(number).map_or(Ok(()), Err)
}

/// The count of an answer that isn't refused.
pub(crate) fn counted(answer: Counted) -> Result<usize, Refusal> {
    refused(answer.refusal).map(|()| answer.count)
}

#[cfg(test)]
mod tests {
    use super::*;

    #[test]
    fn counts_are_told_as_they_are() {
        for count in [0, 1, 16, 48, usize::MAX] {
            assert_eq!(counted(Counted { refusal: 0, count }), Ok(count));
        }
    }

    #[test]
    fn refusals_are_told_by_their_number() {
        assert_eq!(refused(0), Ok(()));
        for number in 1..=255 {
            assert_eq!(refused(number).err(), Refusal::from_number(number));
            let told = counted(Counted {
                refusal: number,
                count: 0,
            });
            let told = told.map_err(|refusal| (refusal.number(), refusal.to_string()));
            let text = format!("refused with {number}: ");
            assert!(told.is_err_and(|(by, said)| by == number && said.len() > text.len() && said.starts_with(&text)));
        }
    }

    #[test]
    fn a_number_that_is_not_known_is_none_of_the_twelve() {
        for number in 13..=254 {
            assert_eq!(refused(number), Err(Refusal::Unknown(number)));
        }
        assert_eq!(refused(255), Err(Refusal::WrongArchive));
    }

    #[test]
    fn refusals_are_ordered_by_their_numbers() {
        let all: Vec<_> = (1..=255).filter_map(Refusal::from_number).collect();
        assert_eq!(all.len(), 255);
        assert!(all.is_sorted());
    }

    #[test]
    fn the_readme_has_the_same_table() {
        let readme = include_str!(concat!(env!("CARGO_MANIFEST_DIR"), "/../README.md"));
        let part = readme.lines().skip_while(|line| *line != "## Refusals").skip(1);
        let table = part.take_while(|line| !line.starts_with('#'));
        let rows = table.filter(|line| line.starts_with('|')).skip(2);
        let of_document_01 = KNOWN.iter().filter(|refusal| refusal.number() <= 12);
        let expected = of_document_01.map(|refusal| format!("| {} | {} |", refusal.number(), refusal.reason()));
        assert_eq!(rows.collect::<Vec<_>>(), expected.collect::<Vec<_>>());
    }
}
