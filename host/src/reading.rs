//! What is read of an arm, and when two are equal.

use crate::abi::{self, Coupling, Spring};
use crate::arm::Arm;
use crate::bits;
use crate::ffi;
use crate::limits::{BLOCK, LINKS, TABLES};
use crate::link::LinkView;
use crate::refusal::{Refusal, counted, refused};
use crate::row::{Role, RowName};
use crate::which::Which;

// ---- The picture

impl Arm {
    /// A link, with its pose, shifts and Jacobian block.
    ///
    /// # Errors
    ///
    /// [`Refusal::NoSuchLink`].
    pub fn link(&self, link: impl Into<Which>) -> Result<LinkView<'_>, Refusal> {
        let number = self.number(link);
        let mut links = self.links();
        links.find(|link| link.number == number).ok_or(Refusal::NoSuchLink)
    }

    /// Every link, rising.
    #[must_use]
    pub fn links(&self) -> impl ExactSizeIterator<Item = LinkView<'_>> {
        let numbers = 0..self.link_count();
        let kept = self.state().links.iter().zip(self.tables().chunks_exact(BLOCK));
        numbers
            .zip(kept)
            .map(|(number, (link, block))| LinkView { number, link, block })
    }

    /// Is every pose, shift and block, bit for bit, what the full working gives? After any sequence of calls it is.
    #[must_use]
    pub fn is_settled(&self) -> bool {
        self.state().is_settled(self.tables())
    }
}

impl abi::Arm {
    /// Is all that is kept of an arm fresh: is every pose, every shift and every float of the tables, bit for bit, what the full working gives? Where that
    /// is refused it is not.
    ///
    /// This is what a user of [`ffi`] may ask of memory of their own; [`Arm`] keeps it so.
    #[must_use]
    pub fn is_settled(&self, tables: &[f32]) -> bool {
        Arm::from_state(self, tables).is_ok_and(|worked| {
            let tables = bits::of_floats(tables).take(TABLES);
            kept(self).eq(kept(worked.state())) && tables.eq(bits::of_floats(worked.tables()))
        })
    }

    /// Every field by its bits, what stands behind the counts included: a refused call leaves them all. By them a NaN is itself and −0 is not +0, which
    /// `==` takes by their values.
    pub fn bits(&self) -> impl Iterator<Item = u32> {
        let counts = [self.link_count, self.coupling_count].into_iter();
        let counts = counts.flat_map(|count| [count as u32, (count >> 32) as u32]);
        let rows = self.rows.iter().flat_map(|row| bits::of_floats(&row.entries));
        counts
            .chain(self.links.iter().flat_map(bits::of_link))
            .chain(self.couplings.iter().flat_map(bits::of_coupling))
            .chain(rows)
    }
}

/// What is kept of every link.
fn kept(arm: &abi::Arm) -> impl Iterator<Item = u32> {
    arm.links.iter().take(arm.link_count).flat_map(bits::of_kept)
}

// ---- What else is read

impl Arm {
    /// How many links there are; their numbers are those below it.
    #[must_use]
    pub fn link_count(&self) -> u32 {
        self.state().link_count.min(LINKS) as u32
    }

    /// How many degrees of freedom there are: the free axes of all joints.
    #[must_use]
    pub fn dof_count(&self) -> usize {
        ffi::arm_dofs(self.state()).count
    }

    /// Where a link's degrees of freedom begin.
    ///
    /// # Errors
    ///
    /// [`Refusal::NoSuchLink`].
    pub fn link_start(&self, link: impl Into<Which>) -> Result<usize, Refusal> {
        counted(ffi::link_start(self.state(), self.number(link)))
    }

    /// The couplings, in the order in which they were added. They name links by number.
    #[must_use]
    pub fn couplings(&self) -> &[Coupling] {
        let all = &self.state().couplings;
        all.get(..self.state().coupling_count).unwrap_or(all)
    }

    /// A row, an entry for each degree of freedom.
    #[must_use]
    pub fn row(&self, row: RowName) -> &[f32] {
        let [velocities, damping, armature, frictions, accelerations] = &self.state().rows;
        let row = match row {
            RowName::Velocities => velocities,
            RowName::Damping => damping,
            RowName::Armature => armature,
            RowName::Frictions => frictions,
            RowName::Accelerations => accelerations,
        };
        row.entries.get(..self.dof_count()).unwrap_or(&row.entries)
    }

    /// A link's own part of one of two lent rows, each at least the DoF count long.
    ///
    /// # Errors
    ///
    /// [`Refusal::ShortMemory`] where either row is shorter, and [`Refusal::NoSuchLink`].
    pub fn row_view<'a>(
        &self,
        role: Role,
        link: impl Into<Which>,
        velocities: &'a [f32],
        accelerations: &'a [f32],
    ) -> Result<&'a [f32], Refusal> {
        let link = self.number(link);
        let (row, part) = match role {
            Role::Velocities => (
                velocities,
                ffi::view_velocities(self.state(), link, velocities, accelerations),
            ),
            Role::Accelerations => (
                accelerations,
                ffi::view_accelerations(self.state(), link, velocities, accelerations),
            ),
        };
        refused(part.refusal)?;
        let own = row.get(part.offset..).and_then(|row| row.get(..part.length));
        Ok(own.unwrap_or_default())
    }

    /// The numbers of the links from the root to a link.
    ///
    /// # Errors
    ///
    /// [`Refusal::NoSuchLink`].
    pub fn kinematic_branch(&self, link: impl Into<Which>) -> Result<Vec<u32>, Refusal> {
        let mut branch = [0; LINKS];
        let answer = ffi::kinematic_branch(self.state(), self.number(link), &mut branch);
        refused(answer.refusal)?;
        Ok(branch.into_iter().take(answer.count).map(u32::from).collect())
    }

    /// The spring of an axis, locked or not.
    ///
    /// # Errors
    ///
    /// [`Refusal::NoSuchLink`], and [`Refusal::BadMask`] for the axis.
    pub fn spring(&self, link: impl Into<Which>, axis: u32) -> Result<Spring, Refusal> {
        let answer = ffi::spring(self.state(), self.number(link), axis);
        refused(answer.refusal)?;
        Ok(answer.spring)
    }

    /// The accelerations of a link's joint, put on their axes; zero on a locked one.
    ///
    /// The slice begins with the link's own entries, one for each of its free axes: it is not the whole row. [`Arm::row_view`] gives that part of a row.
    /// What comes behind them is not read.
    ///
    /// ```
    /// use giellavor::{Arm, NewLink, Refusal, Role, RowName, Tag, axis};
    ///
    /// let mut arm = Arm::new();
    /// arm.add_link(NewLink::fixed(10, 0))?;
    /// arm.add_link(NewLink::hinged(11, Tag(10)))?;
    /// arm.add_link(NewLink::hinged(12, Tag(11)))?;
    /// arm.write_row(RowName::Accelerations, Tag(12), axis::ANGLE, 0.5)?;
    ///
    /// let row = arm.row(RowName::Accelerations);
    /// assert_eq!(row, [0.0, 0.5]);
    /// let own = arm.row_view(Role::Accelerations, Tag(12), row, row)?;
    /// assert_eq!(own, [0.5]);
    /// assert_eq!(arm.jacobian_mul_coordinates(Tag(12), own)?, [0.0, 0.0, 0.5]);
    /// # Ok::<(), Refusal>(())
    /// ```
    ///
    /// # Errors
    ///
    /// [`Refusal::ShortMemory`] for fewer floats than the link has free axes, [`Refusal::NoSuchLink`], and [`Refusal::NotFinite`] for one of them.
    pub fn jacobian_mul_coordinates(&self, link: impl Into<Which>, accelerations: &[f32]) -> Result<[f32; 3], Refusal> {
        let answer = ffi::jacobian_mul_coordinates(self.state(), self.number(link), accelerations);
        refused(answer.refusal)?;
        Ok(answer.axes)
    }
}

// ---- Equality

impl Arm {
    /// All that counts of it, by its bits.
    fn bits(&self) -> impl Iterator<Item = u32> {
        let state = self.state();
        let links = state.links.iter().take(state.link_count).flat_map(bits::of_link);
        let couplings = self.couplings().iter().flat_map(bits::of_coupling);
        let dofs = self.dof_count();
        let rows = state.rows.iter();
        let rows = rows.flat_map(move |row| bits::of_floats(&row.entries).take(dofs));
        links.chain(couplings).chain(rows)
    }
}

impl PartialEq for Arm {
    fn eq(&self, other: &Arm) -> bool {
        let counts = |arm: &Arm| (arm.link_count(), arm.couplings().len());
        counts(self) == counts(other) && self.bits().eq(other.bits())
    }
}

impl Eq for Arm {}
