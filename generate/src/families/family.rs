//! The families of scripts.

#[derive(Clone, Copy, Debug, PartialEq, Eq)]
pub enum Family {
    /// Inside 01's domain, the root's centre of mass and frame 2 zero.
    PlainRoot,
    /// Inside 01's domain, any root.
    AnyRoot,
    /// Outside the domain.
    Outside,
    /// As the first, with commands that must be refused among the others.
    Refusals,
}

impl Family {
    pub const ALL: [Family; 4] = [Family::PlainRoot, Family::AnyRoot, Family::Outside, Family::Refusals];

    pub fn letter(self) -> char {
        match self {
            Family::PlainRoot => 'a',
            Family::AnyRoot => 'b',
            Family::Outside => 'c',
            Family::Refusals => 'd',
        }
    }

    pub fn of_letter(letter: &str) -> Option<Family> {
        Family::ALL
            .into_iter()
            .find(|family| letter.chars().eq([family.letter()]))
    }

    /// The family that a script names in a comment.
    pub fn of_comment(line: &str) -> Option<Family> {
        line.strip_prefix("# family ").and_then(Family::of_letter)
    }

    pub fn has_plain_root(self) -> bool {
        matches!(self, Family::PlainRoot | Family::Refusals)
    }
}
