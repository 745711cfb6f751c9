//! How a link is named: by its number, or by its tag.

use crate::abi;
use std::fmt::{self, Display, Formatter};

/// The tag of a link: given with it, unique in its arm, and kept as long as the link is there.
#[derive(Clone, Copy, Debug, PartialEq, Eq, PartialOrd, Ord, Hash)]
pub struct Tag(pub u32);

impl From<u32> for Tag {
    fn from(tag: u32) -> Tag {
        Tag(tag)
    }
}

impl From<Tag> for u32 {
    fn from(Tag(tag): Tag) -> u32 {
        tag
    }
}

impl Display for Tag {
    fn fmt(&self, f: &mut Formatter<'_>) -> fmt::Result {
        self.0.fmt(f)
    }
}

/// Which link of an arm is meant. Where a method takes one, a plain `u32` is a number, and a [`Tag`] a tag.
///
/// A **number** is a link's place in one arm, now. It can't promise which link it names later, or in another arm: the parts of a split number their
/// links anew. There an old number names another link, and the call is done, on the wrong link; only where no link has it is it refused, with
/// [`Refusal::NoSuchLink`](crate::Refusal::NoSuchLink). Every other call leaves numbers as they are.
///
/// A **tag** names its link after any calls, and in whichever part of a split the link is. Once that link is gone, the tag is refused with
/// [`Refusal::NoSuchLink`](crate::Refusal::NoSuchLink), unless a new link has been given it.
///
/// ```
/// use giellavor::{Arm, NewLink, Refusal, Split, Tag};
///
/// let mut arm = Arm::new();
/// arm.add_link(NewLink::fixed(10, 0))?;
/// arm.add_link(NewLink::hinged(11, Tag(10)))?;
/// arm.add_link(NewLink::hinged(12, Tag(10)))?;
///
/// // Link 1 goes, and link 2 is then number 1.
/// arm = arm.part(Split::delete(Tag(11)), 0)?;
/// assert_eq!(arm.link(1)?.tag(), Tag(12));
/// assert_eq!(arm.link(Tag(11)).err(), Some(Refusal::NoSuchLink));
/// # Ok::<(), Refusal>(())
/// ```
#[derive(Clone, Copy, Debug, PartialEq, Eq, Hash)]
pub enum Which {
    /// The link that has this place in the arm now; the root is 0.
    Number(u32),
    /// The link that has this tag.
    Tag(Tag),
}

/// A number that no link has: an arm has far fewer.
const NO_LINK: u32 = u32::MAX;

impl Which {
    /// Its number in an arm. For a tag that isn't there that is one that no link has: the call itself then refuses it, unless a lower refusal applies.
    pub(crate) fn number_in(self, arm: &abi::Arm) -> u32 {
        match self {
            Which::Number(number) => number,
            Which::Tag(Tag(tag)) => {
                let mut links = (0..).zip(arm.links.iter().take(arm.link_count));
                links
                    .find(|(_, link)| link.tag == tag)
                    .map_or(NO_LINK, |(number, _)| number)
            }
        }
    }
}

impl From<u32> for Which {
    fn from(number: u32) -> Which {
        Which::Number(number)
    }
}

impl From<Tag> for Which {
    fn from(tag: Tag) -> Which {
        Which::Tag(tag)
    }
}

impl Display for Which {
    fn fmt(&self, f: &mut Formatter<'_>) -> fmt::Result {
        match self {
            Which::Number(number) => write!(f, "link {number}"),
            Which::Tag(tag) => write!(f, "the link tagged {tag}"),
        }
    }
}
