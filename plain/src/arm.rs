//! The arm, and the tests that it must pass itself whenever it is handed to a call.

use crate::floats::{finite, flags, none_set};
use crate::joint::Joint;
use crate::limits::{COUPLINGS, DOFS, LINKS};
use crate::masks::{ALL, ANGLE, dofs_below, is_axis, is_free, is_mask};
use crate::point::Point;
use crate::pose::Pose;
use crate::refusal::{Answer, Refusal, Refusal::*};
use crate::rotation::is_wound;

pub use script::RowName;

/// What is kept of a link's place: its world pose and the shifts that carry Jacobians to its centre of mass.
#[derive(Clone, Copy, Debug, PartialEq)]
#[repr(C)]
pub struct Kept {
    pub pose: Pose,
    /// From the parent's centre of mass to the joint.
    pub shift02: Point,
    /// From the joint to the link's own centre of mass.
    pub shift23: Point,
}

impl Kept {
    pub const NONE: Kept = Kept {
        pose: Pose::IDENTITY,
        shift02: Point::ZERO,
        shift23: Point::ZERO,
    };

    /// The flags of its floats.
    #[inline]
    pub fn flags(&self) -> u32 {
        flags(&self.pose.floats()) | flags(&self.shift02.floats()) | flags(&self.shift23.floats())
    }
}

#[derive(Clone, Copy, Debug, PartialEq)]
#[repr(C)]
pub struct Link {
    pub tag: u32,
    pub parent: u8,
    pub joint: Joint,
    /// Centre of mass.
    pub com: Point,
    pub kept: Kept,
}

impl Link {
    pub const UNUSED: Link = Link {
        tag: 0,
        parent: 0,
        joint: Joint::fixed(Pose::IDENTITY),
        com: Point::ZERO,
        kept: Kept::NONE,
    };

    /// The flags of its floats.
    fn flags(&self) -> u32 {
        self.joint.flags() | flags(&self.com.floats()) | self.kept.flags()
    }
}

/// Ties an axis of one link to an axis of another.
#[derive(Clone, Copy, Debug, PartialEq)]
#[repr(C)]
pub struct Coupling {
    pub link1: u8,
    pub axis1: u8,
    pub link2: u8,
    pub axis2: u8,
    pub coeff: f32,
    pub offset: f32,
}

impl Coupling {
    pub const UNUSED: Coupling = Coupling {
        link1: 0,
        axis1: 0,
        link2: 0,
        axis2: 0,
        coeff: 0.0,
        offset: 0.0,
    };
}

/// A float for each DoF, and places for more.
pub type Row = [f32; DOFS];

pub const ROWS: usize = 5;

/// Links, couplings and rows, each list with places past its count that mean nothing.
#[derive(Clone, Debug)]
#[repr(C)]
pub struct Arm {
    pub link_count: usize,
    pub coupling_count: usize,
    pub links: [Link; LINKS],
    pub couplings: [Coupling; COUPLINGS],
    pub rows: [Row; ROWS],
}

impl Arm {
    pub const EMPTY: Arm = Arm {
        link_count: 0,
        coupling_count: 0,
        links: [Link::UNUSED; LINKS],
        couplings: [Coupling::UNUSED; COUPLINGS],
        rows: [[0.0; DOFS]; ROWS],
    };

    /// The links, as far as there can be any.
    pub fn links(&self) -> &[Link] {
        &self.links[..self.link_count.min(LINKS)]
    }

    /// The couplings, as far as there can be any.
    pub fn couplings(&self) -> &[Coupling] {
        &self.couplings[..self.coupling_count.min(COUPLINGS)]
    }

    /// The DoF count; for any arm, so that lengths can be asked for before the arm is tested.
    pub fn dofs(&self) -> usize {
        self.start(self.links().len())
    }

    /// The DoFs of the links before this one.
    pub fn start(&self, link: usize) -> usize {
        self.links[..link].iter().map(|link| link.joint.dofs()).sum()
    }

    /// The DoF of a free axis.
    pub fn dof(&self, link: usize, axis: usize) -> usize {
        self.start(link) + dofs_below(self.links[link].joint.locked, axis)
    }

    pub fn row(&self, row: RowName) -> &Row {
        &self.rows[row as usize]
    }

    pub fn has_link(&self, link: u32) -> bool {
        (link as usize) < self.links().len()
    }

    /// Keep what was worked out of each link.
    pub fn keep(&mut self, all_kept: &[Kept; LINKS]) {
        for (link, kept) in self.links[..self.link_count].iter_mut().zip(all_kept) {
            link.kept = *kept;
        }
    }

    pub fn has_tag(&self, tag: u32) -> bool {
        self.links().iter().any(|link| link.tag == tag)
    }

    /// Whether a link that is there has this axis locked.
    pub fn locks(&self, link: u32, axis: u32) -> bool {
        !is_free(self.links[link as usize].joint.locked, axis as usize)
    }

    /// The lowest rule that the arm breaks or that the `call` says it breaks.
    ///
    /// `call` is asked in rising order, and no more once a rule is broken: what it says of a rule may lean on the
    /// lower ones.
    #[inline(always)]
    pub fn tested(&self, call: impl Fn(Refusal) -> bool) -> Answer {
        Short.when(call(Short))?;
        Full.when(self.is_overfull() || call(Full))?;
        Tag.when(self.repeats_a_tag() || call(Tag))?;
        Number.when(self.misnumbers() || call(Number))?;
        Mask.when(self.mismasks() || call(Mask))?;
        Locked.when(call(Locked))?;
        NotFinite.when(!self.is_finite() || call(NotFinite))?;
        NotUnit.when(call(NotUnit))?;
        Wound.when(self.is_wound() || call(Wound))?;
        Reversed.when(call(Reversed))
    }

    /// Rule 2.
    fn is_overfull(&self) -> bool {
        self.link_count > LINKS || self.coupling_count > COUPLINGS
    }

    /// Rule 3.
    fn repeats_a_tag(&self) -> bool {
        let links = self.links();
        (1..links.len()).any(|i| links[..i].iter().any(|earlier| earlier.tag == links[i].tag))
    }

    /// Rule 4: parents come first, the root is its own, and couplings name links of the arm.
    fn misnumbers(&self) -> bool {
        let misplaced = |(i, link): (usize, &Link)| is_misplaced(i, link.parent);
        let misnames = |c: &Coupling| !self.has_link(c.link1.into()) || !self.has_link(c.link2.into());
        self.links().iter().enumerate().any(misplaced) || self.couplings().iter().any(misnames)
    }

    /// Rule 5: three masks a link, the root all locked or all free, and a coupling's axes.
    fn mismasks(&self) -> bool {
        let masks = |joint: &Joint| [joint.locked, joint.limit, joint.motor];
        let bad = |link: &Link| masks(&link.joint).iter().any(|&mask| !is_mask(mask.into()));
        let misnames = |c: &Coupling| !is_axis(c.axis1.into()) || !is_axis(c.axis2.into());
        self.links()
            .first()
            .is_some_and(|root| !is_root_mask(root.joint.locked.into()))
            || self.links().iter().any(bad)
            || self.couplings().iter().any(misnames)
    }

    /// Rule 7, up to the counts.
    fn is_finite(&self) -> bool {
        let dofs = self.dofs();
        none_set(self.links().iter().fold(0, |flags, link| flags | link.flags()))
            && self
                .couplings()
                .iter()
                .all(|c| c.coeff.is_finite() && c.offset.is_finite())
            && self.rows.iter().all(|row| finite(&row[..dofs]))
    }

    /// Rule 9, of locked angles too.
    fn is_wound(&self) -> bool {
        self.links().iter().any(|link| is_wound(link.joint.coords[ANGLE]))
    }
}

/// Whether a bare list has a parent that doesn't come before its link.
pub fn misplaces(parents: &[u8]) -> bool {
    parents
        .iter()
        .enumerate()
        .any(|(link, &parent)| is_misplaced(link, parent))
}

/// Whether a link's parent doesn't come before it; the root is its own.
fn is_misplaced(link: usize, parent: u8) -> bool {
    parent as usize >= link.max(1)
}

/// A root is fixed or free, nothing between.
pub fn is_root_mask(mask: u32) -> bool {
    mask == ALL as u32 || mask == 0
}
