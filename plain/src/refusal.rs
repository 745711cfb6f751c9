//! The numbers by which a call is refused.

/// A rule that a call broke; its value is the number of document 01's table.
#[derive(Clone, Copy, Debug, PartialEq, Eq, PartialOrd, Ord)]
#[repr(u8)]
pub enum Refusal {
    /// Lent memory is too short.
    Short = 1,
    /// A list is full, or a count is more than fits.
    Full = 2,
    /// The tag is taken.
    Tag = 3,
    /// No such link, or a parent out of order.
    Number = 4,
    /// No such mask, axis or root mask.
    Mask = 5,
    /// The axis is locked.
    Locked = 6,
    /// A float that is given or read isn't finite.
    NotFinite = 7,
    /// A rotation isn't of unit length.
    NotUnit = 8,
    /// A joint is wound too far.
    Wound = 9,
    /// Bounds are the wrong way round.
    Reversed = 10,
    /// No pivot is left in a column.
    Singular = 11,
    /// A result isn't finite.
    Overflow = 12,
}

/// What a call answers: its value, or the lowest rule that it breaks.
pub type Answer<T = ()> = Result<T, Refusal>;

impl Refusal {
    /// Refuse by this rule if it `applies`.
    #[inline]
    pub fn when(self, applies: bool) -> Answer {
        if applies { Err(self) } else { Ok(()) }
    }

    /// The number in the table.
    pub fn number(self) -> u8 {
        self as u8
    }
}
