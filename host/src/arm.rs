//! An arm, with the memory that its calls work in: how it is made, edited and split.

use crate::abi::{self, Edited, Point, Pose, Spring};
use crate::ffi;
use crate::given::{NewCoupling, NewLink};
use crate::limits::{LINKS, TABLES};
use crate::refusal::{Refusal, refused};
use crate::row::RowName;
use crate::split::{Place, Split, places};
use crate::which::Which;

/// A planar arm: a tree of links, each joined to its parent, with the picture of every link kept fresh.
///
/// Every call takes any argument. Refused, it changes nothing; done, every pose, shift and Jacobian block is what the full working of the arm gives,
/// bit for bit. A link is named by its number or by its [`Tag`](crate::Tag): see [`Which`] for what a number can't promise.
///
/// Two arms are equal where they are up to their counts, bit for bit: links in their order, couplings in theirs, and of each row an entry for each degree
/// of freedom. −0 is not +0. The tables take no part: they follow from the arm, in every bit. `{:?}` prints the tree.
#[derive(Clone)]
pub struct Arm {
    /// What the last call that edited it answered.
    edited: Box<Edited>,
    tables: Box<[f32]>,
}

impl Default for Arm {
    fn default() -> Arm {
        Arm::new()
    }
}

fn new_tables() -> Box<[f32]> {
    vec![0.0; TABLES].into_boxed_slice()
}

/// A new arm with tables of its own.
fn owned(call: impl FnOnce(&mut [f32]) -> Edited) -> Result<Arm, Refusal> {
    let mut tables = new_tables();
    let edited = Box::new(call(&mut tables));
    refused(edited.refusal)?;
    Ok(Arm { edited, tables })
}

// ---- Making an arm

impl Arm {
    /// An arm of no links.
    #[must_use]
    pub fn new() -> Arm {
        let mut tables = new_tables();
        // Only tables that are too short are refused.
        let edited = Box::new(ffi::empty(&mut tables));
        Arm { edited, tables }
    }

    /// An arm of a state and tables that were kept elsewhere, as [`ffi`] and [`abi`] have them, or [`Arm::state`] and [`Arm::tables`].
    ///
    /// It is tested as any arm that is handed in, and worked out in full: whatever the state keeps of its links, and whatever the tables hold, the picture
    /// is fresh from here on. Where nothing was stale every bit up to the counts is what it was: [`abi::Arm::is_settled`] asks for that alone, and at
    /// [`abi`] stands what who calls [`ffi`] must keep to. Floats past the tables are left out.
    ///
    /// # Errors
    ///
    /// [`Refusal::ShortMemory`] for tables of less than [`TABLES`] floats, what the state breaks of [`Refusal::TooMany`], [`Refusal::TagTaken`],
    /// [`Refusal::NoSuchLink`], [`Refusal::BadMask`], [`Refusal::NotFinite`] and [`Refusal::AngleTooFar`], and [`Refusal::ResultNotFinite`].
    pub fn from_state(state: &abi::Arm, tables: &[f32]) -> Result<Arm, Refusal> {
        let handed_in = Edited {
            arm: *state,
            refusal: 0,
        };
        let mut arm = Arm {
            edited: Box::new(handed_in),
            tables: tables.get(..TABLES).unwrap_or(tables).into(),
        };
        arm.full_working()?;
        Ok(arm)
    }

    /// The call's arm in place of the old one.
    fn edit(&mut self, call: impl FnOnce(&mut Edited, &mut [f32]) -> u8) -> Result<(), Refusal> {
        refused(call(&mut self.edited, &mut self.tables))
    }

    /// Adds a link behind the last, and returns its number. A first link is the root: its parent is 0, its locked mask 7 or 0.
    ///
    /// # Errors
    ///
    /// [`Refusal::TooMany`] where the arm is full, [`Refusal::TagTaken`], [`Refusal::NoSuchLink`] for the parent, [`Refusal::BadMask`],
    /// [`Refusal::NotFinite`], [`Refusal::NoRotation`] for a frame, and [`Refusal::ResultNotFinite`].
    pub fn add_link(&mut self, link: NewLink) -> Result<u32, Refusal> {
        let (number, link) = (self.link_count(), link.given_to(self.state()));
        self.edit(|arm, tables| ffi::add_link(arm, tables, link))?;
        Ok(number)
    }

    /// Adds a coupling. A locked axis may be coupled.
    ///
    /// # Errors
    ///
    /// [`Refusal::TooMany`] where there are as many as fit, [`Refusal::NoSuchLink`], [`Refusal::BadMask`] for an axis, and [`Refusal::NotFinite`].
    pub fn add_coupling(&mut self, coupling: NewCoupling) -> Result<(), Refusal> {
        let coupling = coupling.given_to(self.state());
        self.edit(|arm, _| ffi::add_coupling(arm, coupling))
    }
}

// ---- Edits

impl Arm {
    /// Sets the entry of a free axis in a row.
    ///
    /// # Errors
    ///
    /// [`Refusal::NoSuchLink`], [`Refusal::BadMask`] for the axis, [`Refusal::AxisLocked`] and [`Refusal::NotFinite`].
    pub fn write_row(&mut self, row: RowName, link: impl Into<Which>, axis: u32, value: f32) -> Result<(), Refusal> {
        let write = match row {
            RowName::Velocities => ffi::write_velocity,
            RowName::Damping => ffi::write_damping,
            RowName::Armature => ffi::write_armature,
            RowName::Frictions => ffi::write_friction,
            RowName::Accelerations => ffi::write_acceleration,
        };
        let link = self.number(link);
        self.edit(|arm, _| write(arm, link, axis, value))
    }

    /// Sets the spring of an axis, locked or not.
    ///
    /// # Errors
    ///
    /// [`Refusal::NoSuchLink`], [`Refusal::BadMask`] for the axis, and [`Refusal::NotFinite`].
    pub fn set_spring(&mut self, link: impl Into<Which>, axis: u32, spring: Spring) -> Result<(), Refusal> {
        let link = self.number(link);
        self.edit(|arm, _| ffi::set_spring(arm, link, axis, spring))
    }

    /// Sets a free coordinate; every link below follows.
    ///
    /// # Errors
    ///
    /// [`Refusal::NoSuchLink`], [`Refusal::BadMask`] for the axis, [`Refusal::AxisLocked`], [`Refusal::NotFinite`], [`Refusal::AngleTooFar`] and
    /// [`Refusal::ResultNotFinite`].
    pub fn move_coordinate(&mut self, link: impl Into<Which>, axis: u32, value: f32) -> Result<(), Refusal> {
        let link = self.number(link);
        self.edit(|arm, tables| ffi::move_coordinate(arm, tables, link, axis, value))
    }

    /// Sets both frames of a joint; every link below follows.
    ///
    /// # Errors
    ///
    /// [`Refusal::NoSuchLink`], [`Refusal::NotFinite`], [`Refusal::NoRotation`] and [`Refusal::ResultNotFinite`].
    pub fn move_frames(&mut self, link: impl Into<Which>, first: Pose, second: Pose) -> Result<(), Refusal> {
        let link = self.number(link);
        self.edit(|arm, tables| ffi::move_frames(arm, tables, link, first, second))
    }

    /// Sets a centre of mass; every link below follows.
    ///
    /// # Errors
    ///
    /// [`Refusal::NoSuchLink`], [`Refusal::NotFinite`] and [`Refusal::ResultNotFinite`].
    pub fn move_centre(&mut self, link: impl Into<Which>, centre: Point) -> Result<(), Refusal> {
        let link = self.number(link);
        self.edit(|arm, tables| ffi::move_centre(arm, tables, link, centre))
    }

    /// Works every link out anew. No call needs it: what is kept is always fresh, so that it changes nothing.
    ///
    /// # Errors
    ///
    /// None that an arm's own state makes: it was worked out before.
    pub fn full_working(&mut self) -> Result<(), Refusal> {
        self.edit(ffi::full_working)
    }

    /// Integrates every joint by its velocities over dt.
    ///
    /// # Errors
    ///
    /// [`Refusal::NotFinite`] for dt, [`Refusal::AngleTooFar`] and [`Refusal::ResultNotFinite`].
    pub fn step(&mut self, dt: f32) -> Result<(), Refusal> {
        self.edit(|arm, tables| ffi::step(arm, tables, dt))
    }

    /// Makes the root free, at a pose.
    ///
    /// # Errors
    ///
    /// [`Refusal::NoSuchLink`] for an arm of no links, [`Refusal::NotFinite`], [`Refusal::NoRotation`] and [`Refusal::ResultNotFinite`].
    pub fn free_root(&mut self, pose: Pose) -> Result<(), Refusal> {
        self.edit(|arm, tables| ffi::free_root(arm, tables, pose))
    }

    /// Makes the root fixed, at a pose.
    ///
    /// # Errors
    ///
    /// As for [`Arm::free_root`].
    pub fn fix_root(&mut self, pose: Pose) -> Result<(), Refusal> {
        self.edit(|arm, tables| ffi::fix_root(arm, tables, pose))
    }
}

// ---- Splits

impl Arm {
    /// The part count of a split, and where each link goes: none for a deleted one.
    ///
    /// # Errors
    ///
    /// [`Refusal::NoSuchLink`].
    pub fn split_map(&self, split: Split) -> Result<(usize, Vec<Option<Place>>), Refusal> {
        let mut map = [0; 2 * LINKS];
        let answer = match split {
            Split::Delete(link) => ffi::arm_split_delete(self.state(), self.number(link), &mut map),
            Split::Cut(link) => ffi::arm_split_cut(self.state(), self.number(link), &mut map),
        };
        refused(answer.refusal)?;
        Ok((answer.count, places(&map).take(self.links().len()).collect()))
    }

    /// One part of a split, from 0, as an arm of its own. Its links have their tags, and new numbers.
    ///
    /// # Errors
    ///
    /// [`Refusal::NoSuchLink`], where there is no such part too, and [`Refusal::ResultNotFinite`].
    pub fn part(&self, split: Split, number: usize) -> Result<Arm, Refusal> {
        // No split has as many parts.
        let number = u32::try_from(number).unwrap_or(u32::MAX);
        owned(|tables| match split {
            Split::Delete(link) => ffi::part_delete(self.state(), self.number(link), number, tables),
            Split::Cut(link) => ffi::part_cut(self.state(), self.number(link), number, tables),
        })
    }

    /// Every part of a split, in order. The arm itself stays.
    ///
    /// # Errors
    ///
    /// [`Refusal::NoSuchLink`] and [`Refusal::ResultNotFinite`].
    pub fn parts(&self, split: Split) -> Result<Vec<Arm>, Refusal> {
        let (count, _) = self.split_map(split)?;
        (0..count).map(|number| self.part(split, number)).collect()
    }
}

// ---- What crosses the boundary

impl Arm {
    /// The arm as it crosses the boundary.
    #[must_use]
    pub fn state(&self) -> &abi::Arm {
        &self.edited.arm
    }

    /// The Jacobian blocks of all links, one after the other.
    #[must_use]
    pub fn tables(&self) -> &[f32] {
        &self.tables
    }

    /// The number of a link that is named by number or by tag.
    pub(crate) fn number(&self, link: impl Into<Which>) -> u32 {
        link.into().number_in(self.state())
    }
}
