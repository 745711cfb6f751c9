//! What is given of a new link and of a new coupling. Other links are named in them by number or by tag.

use crate::abi::{self, Point, Pose};
use crate::which::{Tag, Which};

/// What is given of a new link. Its coordinates and springs start as zeros. Masks are any numbers: none is cut.
///
/// `NewLink::hinged(12, Tag(11))` is a link tagged 12 on the link tagged 11; `NewLink::hinged(12, 1)` is one on link number 1. Bit 0 of a mask is X, bit 1
/// is Y, bit 2 the angle.
#[derive(Clone, Copy, Debug, PartialEq)]
pub struct NewLink {
    /// Its tag, which no other link of the arm has.
    pub tag: Tag,
    /// Its parent. A first link has none: there it is number 0.
    pub parent: Which,
    /// The axes that are locked; 7 or 0 for a first link.
    pub locked: u32,
    /// The axes that have a limit.
    pub limit: u32,
    /// The axes that have a motor.
    pub motor: u32,
    /// Where the joint stands on the parent.
    pub frame1: Pose,
    /// Where the joint stands on the link.
    pub frame2: Pose,
    /// Its centre of mass.
    pub centre: Point,
}

impl NewLink {
    /// A link whose joint is locked on every axis, frames and centre of mass at the origin. The rest is set by its fields.
    #[must_use]
    pub fn fixed(tag: impl Into<Tag>, parent: impl Into<Which>) -> NewLink {
        NewLink::from(abi::NewLink::fixed(0, 0)).named(tag.into(), parent.into())
    }

    /// The same, free to turn.
    #[must_use]
    pub fn hinged(tag: impl Into<Tag>, parent: impl Into<Which>) -> NewLink {
        NewLink::from(abi::NewLink::hinged(0, 0)).named(tag.into(), parent.into())
    }

    /// The same, free on every axis.
    #[must_use]
    pub fn free(tag: impl Into<Tag>, parent: impl Into<Which>) -> NewLink {
        NewLink::from(abi::NewLink::free(0, 0)).named(tag.into(), parent.into())
    }

    fn named(self, tag: Tag, parent: Which) -> NewLink {
        NewLink { tag, parent, ..self }
    }

    /// As it crosses the boundary to an arm.
    pub(crate) fn given_to(self, arm: &abi::Arm) -> abi::NewLink {
        abi::NewLink {
            tag: self.tag.into(),
            parent: self.parent.number_in(arm),
            locked: self.locked,
            limit: self.limit,
            motor: self.motor,
            frame1: self.frame1,
            frame2: self.frame2,
            centre: self.centre,
        }
    }
}

/// The parent is named by its number.
impl From<abi::NewLink> for NewLink {
    fn from(given: abi::NewLink) -> NewLink {
        NewLink {
            tag: given.tag.into(),
            parent: given.parent.into(),
            locked: given.locked,
            limit: given.limit,
            motor: given.motor,
            frame1: given.frame1,
            frame2: given.frame2,
            centre: given.centre,
        }
    }
}

impl abi::NewLink {
    /// A link whose joint is locked on every axis, frames and centre of mass at the origin. The rest is set by its fields.
    #[must_use]
    pub const fn fixed(tag: u32, parent: u32) -> abi::NewLink {
        abi::NewLink {
            tag,
            parent,
            locked: 7,
            limit: 0,
            motor: 0,
            frame1: Pose::IDENTITY,
            frame2: Pose::IDENTITY,
            centre: Point { x: 0.0, y: 0.0 },
        }
    }

    /// The same, free to turn.
    #[must_use]
    pub const fn hinged(tag: u32, parent: u32) -> abi::NewLink {
        abi::NewLink {
            locked: 3,
            ..abi::NewLink::fixed(tag, parent)
        }
    }

    /// The same, free on every axis.
    #[must_use]
    pub const fn free(tag: u32, parent: u32) -> abi::NewLink {
        abi::NewLink {
            locked: 0,
            ..abi::NewLink::fixed(tag, parent)
        }
    }
}

/// A coupling as it is given: two links with an axis each, locked or not, tied by a coefficient and an offset.
#[derive(Clone, Copy, Debug, PartialEq)]
pub struct NewCoupling {
    /// The one link.
    pub link1: Which,
    /// Its axis.
    pub axis1: u32,
    /// The other link, or the same.
    pub link2: Which,
    /// Its axis.
    pub axis2: u32,
    /// The coefficient.
    pub coefficient: f32,
    /// The offset.
    pub offset: f32,
}

impl NewCoupling {
    /// A coupling of two axes, with coefficient 1 and offset 0. Others are set by its fields.
    #[must_use]
    pub fn between(link1: impl Into<Which>, axis1: u32, link2: impl Into<Which>, axis2: u32) -> NewCoupling {
        NewCoupling {
            link1: link1.into(),
            axis1,
            link2: link2.into(),
            axis2,
            coefficient: 1.0,
            offset: 0.0,
        }
    }

    /// As it crosses the boundary to an arm.
    pub(crate) fn given_to(self, arm: &abi::Arm) -> abi::NewCoupling {
        abi::NewCoupling {
            link1: self.link1.number_in(arm),
            axis1: self.axis1,
            link2: self.link2.number_in(arm),
            axis2: self.axis2,
            coefficient: self.coefficient,
            offset: self.offset,
        }
    }
}

/// The links are named by their numbers.
impl From<abi::NewCoupling> for NewCoupling {
    fn from(given: abi::NewCoupling) -> NewCoupling {
        NewCoupling {
            coefficient: given.coefficient,
            offset: given.offset,
            ..NewCoupling::between(given.link1, given.axis1, given.link2, given.axis2)
        }
    }
}
