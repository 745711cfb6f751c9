//! What is read of a link in an arm.

use crate::abi::{Joint, Link, Point, Pose};
use crate::limits::DOFS;
use crate::which::Tag;

/// A link of an arm, with what is kept of it: its picture.
#[derive(Clone, Copy, Debug)]
pub struct LinkView<'a> {
    pub(crate) number: u32,
    pub(crate) link: &'a Link,
    pub(crate) block: &'a [f32],
}

impl<'a> LinkView<'a> {
    /// Its place in the arm. A split numbers the links of each part anew; the tag stays.
    #[must_use]
    pub fn number(&self) -> u32 {
        self.number
    }

    /// Its tag, by which it is named as long as it is there.
    #[must_use]
    pub fn tag(&self) -> Tag {
        Tag(self.link.tag)
    }

    /// The number of its parent; the root's is 0, its own.
    #[must_use]
    pub fn parent(&self) -> u32 {
        self.link.parent.into()
    }

    /// Its joint: masks, frames, coordinates and springs.
    #[must_use]
    pub fn joint(&self) -> &'a Joint {
        &self.link.joint
    }

    /// Its centre of mass, as it was given: as the link sees it.
    #[must_use]
    pub fn centre(&self) -> Point {
        self.link.centre
    }

    /// Its pose in the world.
    #[must_use]
    pub fn pose(&self) -> Pose {
        self.link.world
    }

    /// From the parent's centre of mass to the joint.
    #[must_use]
    pub fn shift02(&self) -> Point {
        self.link.shift02
    }

    /// From the joint to the own centre of mass.
    #[must_use]
    pub fn shift23(&self) -> Point {
        self.link.shift23
    }

    /// Its Jacobian: rows X, Y and angle, a column for each place of a degree of freedom; +0 in unused ones.
    #[must_use]
    pub fn block(&self) -> &'a [f32] {
        self.block
    }

    /// The three rows of its Jacobian.
    pub fn rows(&self) -> impl Iterator<Item = &'a [f32]> + use<'a> {
        self.block.chunks_exact(DOFS)
    }
}
