//! Constraint rows of one DoF, and a force carried to the joints.

use crate::arm::{Arm, RowName};
use crate::floats::finite;
use crate::kinematics::block_of;
use crate::limits::{DOFS, TABLES};
use crate::masks::is_axis;
use crate::refusal::{Answer, Refusal, Refusal::*};
use crate::solve::solve_in_place;

pub use script::Limit;

/// What a constraint row says besides its two vectors.
#[derive(Clone, Copy, Debug, PartialEq)]
pub struct ConstraintRow {
    pub lower: f32,
    pub upper: f32,
    pub rhs: f32,
    pub cfm_gain: f32,
    pub inv_lhs: f32,
}

/// Bounds of a limit's impulse; at rest the lower one is minus zero.
fn bounds(limit: &Limit) -> (f32, f32) {
    (
        if limit.pos < limit.min { -f32::MAX } else { -0.0 },
        if limit.max < limit.pos { f32::MAX } else { 0.0 },
    )
}

/// How fast the axis is to come back.
fn rhs(limit: &Limit) -> f32 {
    let past = |distance: f32| if distance > 0.0 { distance } else { 0.0 };
    0.0 + (past(limit.pos - limit.max) - past(limit.min - limit.pos)) * limit.erp_inv_dt
}

/// A vector and its solve, in memory that the caller lends.
pub struct Vectors<'a> {
    pub j: &'a mut [f32],
    pub wj: &'a mut [f32],
}

impl Vectors<'_> {
    fn are_shorter_than(&self, n: usize) -> bool {
        self.j.len() < n || self.wj.len() < n
    }

    fn write(&mut self, j: &[f32], wj: &[f32]) {
        self.j[..j.len()].copy_from_slice(j);
        self.wj[..wj.len()].copy_from_slice(wj);
    }
}

impl Arm {
    /// The row that keeps an axis within its limits.
    pub fn limit_row(
        &self,
        mass: &[f32],
        link: u32,
        axis: u32,
        limit: &Limit,
        out: &mut Vectors,
    ) -> Answer<ConstraintRow> {
        let n = self.dofs();
        self.tested(|rule| {
            self.row_breaks(rule, n, mass, link, axis, out)
                || match rule {
                    NotFinite => !finite(&[
                        limit.pos,
                        limit.min,
                        limit.max,
                        limit.dt,
                        limit.erp_inv_dt,
                        limit.cfm_coeff,
                    ]),
                    Reversed => limit.min > limit.max,
                    _ => false,
                }
        })?;
        self.unit_row(n, mass, link, axis, bounds(limit), rhs(limit), limit.cfm_coeff, out)
    }

    /// The row that rubs on an axis, by the arm's own friction.
    pub fn friction_row(
        &self,
        mass: &[f32],
        link: u32,
        axis: u32,
        dt: f32,
        cfm_coeff: f32,
        out: &mut Vectors,
    ) -> Answer<ConstraintRow> {
        let n = self.dofs();
        let most = || self.row(RowName::Frictions)[self.dof(link as usize, axis as usize)] * dt;
        self.tested(|rule| {
            self.row_breaks(rule, n, mass, link, axis, out)
                || match rule {
                    NotFinite => !dt.is_finite() || !cfm_coeff.is_finite(),
                    Reversed => most() < 0.0,
                    _ => false,
                }
        })?;
        let most = most();
        self.unit_row(n, mass, link, axis, (-most, most), 0.0, cfm_coeff, out)
    }

    /// What both rows ask for.
    #[inline(always)]
    fn row_breaks(&self, rule: Refusal, n: usize, mass: &[f32], link: u32, axis: u32, out: &Vectors) -> bool {
        match rule {
            Short => mass.len() < n * n || out.are_shorter_than(n),
            Number => !self.has_link(link),
            Mask => !is_axis(axis),
            Locked => self.locks(link, axis),
            NotFinite => !finite(&mass[..n * n]),
            _ => false,
        }
    }

    /// The row of one DoF: its unit vector, solved.
    #[allow(clippy::too_many_arguments)]
    fn unit_row(
        &self,
        n: usize,
        mass: &[f32],
        link: u32,
        axis: u32,
        (lower, upper): (f32, f32),
        rhs: f32,
        cfm_coeff: f32,
        out: &mut Vectors,
    ) -> Answer<ConstraintRow> {
        let dof = self.dof(link as usize, axis as usize);
        let mut j = [0.0; DOFS];
        j[dof] = 1.0;
        let mut wj = j;
        solve_in_place(mass, &mut wj[..n])?;
        let lhs = wj[dof];
        let cfm_gain = lhs * cfm_coeff;
        let divisor = lhs + cfm_gain;
        let inv_lhs = if divisor == 0.0 { 0.0 } else { 1.0 / divisor };
        Overflow.when(!finite(&[lower, upper, rhs, cfm_gain, inv_lhs]))?;
        out.write(&j[..n], &wj[..n]);
        Ok(ConstraintRow {
            lower,
            upper,
            rhs,
            cfm_gain,
            inv_lhs,
        })
    }

    /// A force and a torque on a link, carried to the DoFs; the answer is their products with their solve and with
    /// the velocities.
    pub fn fill_jacobians(
        &self,
        tables: &[f32],
        mass: &[f32],
        link: u32,
        force: [f32; 2],
        torque: f32,
        out: &mut Vectors,
    ) -> Answer<(f32, f32)> {
        let n = self.dofs();
        self.tested(|rule| match rule {
            Short => tables.len() < TABLES || mass.len() < n * n || out.are_shorter_than(n),
            Number => !self.has_link(link),
            NotFinite => {
                !finite(&force)
                    || !torque.is_finite()
                    || !finite(block_of(tables, link as usize))
                    || !finite(&mass[..n * n])
            }
            _ => false,
        })?;
        let block = block_of(tables, link as usize);
        let mut j = [0.0; DOFS];
        for (column, entry) in j[..n].iter_mut().enumerate() {
            let [x, y, turn] = [block[column], block[DOFS + column], block[2 * DOFS + column]];
            *entry = x * force[0] + y * force[1] + turn * torque;
        }
        let mut wj = j;
        solve_in_place(mass, &mut wj[..n])?;
        let (j, wj) = (&j[..n], &wj[..n]);
        let sums = (product(j, wj), product(j, &self.row(RowName::Velocities)[..n]));
        Overflow.when(!finite(j) || !sums.0.is_finite() || !sums.1.is_finite())?;
        out.write(j, wj);
        Ok(sums)
    }
}

/// The products of two vectors, summed in order.
fn product(a: &[f32], b: &[f32]) -> f32 {
    a.iter().zip(b).fold(0.0, |sum, (x, y)| sum + x * y)
}
