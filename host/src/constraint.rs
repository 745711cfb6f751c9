//! Constraint rows of one degree of freedom, and what a force does along all of them.

use crate::abi::{self, Force, Limits};
use crate::arm::Arm;
use crate::ffi;
use crate::refusal::{Refusal, refused};
use crate::which::Which;

/// The mass matrix, n by n in rows, and where J and WJ go: the first n floats of each, n being the DoF count of the arm.
#[derive(Debug)]
pub struct Lent<'a> {
    /// The mass matrix; it is not changed.
    pub mass: &'a [f32],
    /// Where J goes.
    pub j: &'a mut [f32],
    /// Where WJ goes, the solve of the mass matrix against J.
    pub wj: &'a mut [f32],
}

/// Between which bounds a row's impulse lies, its right side, and the gains of its degree of freedom.
#[derive(Clone, Copy, Debug, PartialEq)]
pub struct ConstraintRow {
    /// The lower bound of the impulse.
    pub lower: f32,
    /// The upper bound of the impulse.
    pub upper: f32,
    /// The right side.
    pub rhs: f32,
    /// WJ at the degree of freedom, times the coefficient that was given.
    pub cfm_gain: f32,
    /// One over the sum of WJ at the degree of freedom and `cfm_gain`; 0 where that is zero.
    pub inv_lhs: f32,
}

impl ConstraintRow {
    pub(crate) fn told(answer: abi::ConstraintRow) -> Result<ConstraintRow, Refusal> {
        refused(answer.refusal)?;
        Ok(ConstraintRow {
            lower: answer.lower,
            upper: answer.upper,
            rhs: answer.rhs,
            cfm_gain: answer.cfm_gain,
            inv_lhs: answer.inv_lhs,
        })
    }
}

/// j·wj and j·velocities.
#[derive(Clone, Copy, Debug, PartialEq)]
pub struct Sums {
    /// j·wj.
    pub j_wj: f32,
    /// j·velocities.
    pub j_velocities: f32,
}

impl Sums {
    pub(crate) fn told(answer: abi::Sums) -> Result<Sums, Refusal> {
        refused(answer.refusal)?;
        Ok(Sums {
            j_wj: answer.j_wj,
            j_velocities: answer.j_velocities,
        })
    }
}

impl Arm {
    /// The row of an axis' limit.
    ///
    /// # Errors
    ///
    /// [`Refusal::ShortMemory`], [`Refusal::NoSuchLink`], [`Refusal::BadMask`] for the axis, [`Refusal::AxisLocked`], [`Refusal::NotFinite`] for what is
    /// given or for the mass matrix, [`Refusal::BoundsReversed`], [`Refusal::Singular`] and [`Refusal::ResultNotFinite`].
    pub fn limit_row(
        &self,
        link: impl Into<Which>,
        axis: u32,
        limits: Limits,
        lent: Lent,
    ) -> Result<ConstraintRow, Refusal> {
        let Lent { mass, j, wj } = lent;
        ConstraintRow::told(ffi::limit_row(
            self.state(),
            self.number(link),
            axis,
            limits,
            mass,
            j,
            wj,
        ))
    }

    /// The row of an axis' friction, which the arm's row of frictions holds.
    ///
    /// # Errors
    ///
    /// As for [`Arm::limit_row`]; the bounds are reversed where friction·dt is below zero.
    pub fn friction_row(
        &self,
        link: impl Into<Which>,
        axis: u32,
        dt: f32,
        cfm_coeff: f32,
        lent: Lent,
    ) -> Result<ConstraintRow, Refusal> {
        let Lent { mass, j, wj } = lent;
        let link = self.number(link);
        ConstraintRow::told(ffi::friction_row(self.state(), link, axis, dt, cfm_coeff, mass, j, wj))
    }

    /// What a force on a link does along each degree of freedom, its solve by the mass matrix, and their sums.
    ///
    /// # Errors
    ///
    /// [`Refusal::ShortMemory`], [`Refusal::NoSuchLink`], [`Refusal::NotFinite`] for the force or for the mass matrix, [`Refusal::Singular`] and
    /// [`Refusal::ResultNotFinite`].
    pub fn fill_jacobians(&self, link: impl Into<Which>, force: Force, lent: Lent) -> Result<Sums, Refusal> {
        let Lent { mass, j, wj } = lent;
        let link = self.number(link);
        Sums::told(ffi::fill_jacobians(
            self.state(),
            link,
            force,
            self.tables(),
            mass,
            j,
            wj,
        ))
    }
}
