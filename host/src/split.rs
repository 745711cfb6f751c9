//! A split of an arm: a link is deleted, or its joint only is cut.
//!
//! The functions here are over bare lists: parents are one byte a link, the map two, and a link has no tag but its number alone.

use crate::Refusal;
use crate::ffi;
use crate::refusal::counted;
use crate::which::Which;

/// How an arm is split.
#[derive(Clone, Copy, Debug, PartialEq, Eq, Hash)]
pub enum Split {
    /// The link is deleted; each of its children becomes the root of a part.
    Delete(Which),
    /// The link's joint is cut: with all that is below it, it becomes a part.
    Cut(Which),
}

impl Split {
    /// A link, by number or by tag, is deleted: `Split::delete(Tag(12))`.
    #[must_use]
    pub fn delete(link: impl Into<Which>) -> Split {
        Split::Delete(link.into())
    }

    /// The joint of a link, by number or by tag, is cut.
    #[must_use]
    pub fn cut(link: impl Into<Which>) -> Split {
        Split::Cut(link.into())
    }
}

/// Writes part and new number of each old link when a link is deleted, two bytes a link; returned is the part count.
/// [`places`] reads the map.
///
/// # Errors
///
/// [`Refusal::ShortMemory`] where the map is shorter than two bytes a parent, [`Refusal::TooMany`] for more parents than an arm has links, and
/// [`Refusal::NoSuchLink`], for a parent that does not come before its link too.
pub fn delete(parents: &[u8], link: u32, map: &mut [u8]) -> Result<usize, Refusal> {
    counted(ffi::split_delete(parents, link, map))
}

/// The same when a link's joint is cut.
///
/// # Errors
///
/// As for [`delete`].
pub fn cut(parents: &[u8], link: u32, map: &mut [u8]) -> Result<usize, Refusal> {
    counted(ffi::split_cut(parents, link, map))
}

/// Where an old link is after a split.
#[derive(Clone, Copy, Debug, PartialEq, Eq)]
pub struct Place {
    /// Which part it is in, from 0.
    pub part: usize,
    /// Its number there.
    pub number: u32,
}

/// The place of each old link of a map; none for the deleted one.
pub fn places(map: &[u8]) -> impl Iterator<Item = Option<Place>> {
    map.as_chunks().0.iter().map(|&link| match link {
        [255, 255] => None,
        [part, number] => Some(Place {
            part: part.into(),
            number: number.into(),
        }),
    })
}
