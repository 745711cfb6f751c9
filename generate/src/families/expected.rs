//! What a script says of its next command, in a comment before it.

use std::fmt;

#[derive(Clone, Copy, Debug, PartialEq, Eq)]
pub enum Expected {
    Accepted,
    Refused(u8),
    Either,
}

impl Expected {
    pub fn of_comment(line: &str) -> Option<Expected> {
        match line.strip_prefix("# expect ")?.strip_prefix("refused ") {
            Some(number) => number.parse().ok().map(Expected::Refused),
            None => Some(Expected::Either),
        }
    }
}

/// The comment with its newline; none where the command is to be accepted.
impl fmt::Display for Expected {
    fn fmt(&self, f: &mut fmt::Formatter) -> fmt::Result {
        match self {
            Expected::Accepted => Ok(()),
            Expected::Refused(number) => writeln!(f, "# expect refused {number}"),
            Expected::Either => writeln!(f, "# expect any"),
        }
    }
}
