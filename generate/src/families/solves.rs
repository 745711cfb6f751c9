//! Commands that need a mass matrix.

use super::maker::Maker;
use crate::floats;
use crate::masses;
use script::Command;

impl Maker {
    fn matrix(&mut self, n: usize) -> Vec<f32> {
        match self.is_outside() {
            true => masses::loose(&mut self.hand.rng, n, 100.0),
            false => masses::dominant(&mut self.hand.rng, n),
        }
    }

    pub fn lend_mass(&mut self) {
        let n = self.shape.dofs();
        if self.mass != Some(n) || self.hand.rng.one_in(4) {
            let matrix = self.matrix(n);
            self.accepted(Command::Mass { matrix });
            self.mass = Some(n);
        }
    }

    fn right_sides(&mut self, n: usize) -> Vec<f32> {
        let most = if self.is_outside() { 1000.0 } else { 1.0 };
        (0..n).map(|_| floats::within(&mut self.hand.rng, most)).collect()
    }

    /// A matrix inside 01's domain but for two of its rows, which stand in each other's place: it needs its pivots.
    fn solve_with_swapped_rows(&mut self) {
        let n = self.shape.dofs();
        let mut matrix = self.matrix(n);
        let [row, other] = [0; 2].map(|_| self.hand.rng.below(n));
        for column in 0..n {
            matrix.swap(row * n + column, other * n + column);
        }
        self.accepted(Command::Mass { matrix });
        self.mass = None;
        let right = self.right_sides(n);
        self.accepted(Command::Solve { right });
    }

    pub fn solves(&mut self) {
        if !self.is_outside() && self.shape.dofs() > 0 && self.hand.rng.one_in(4) {
            self.solve_with_swapped_rows();
        }
        self.lend_mass();
        for _ in 0..self.hand.rng.between(1, 4) {
            match self.hand.rng.below(4) {
                0 => {
                    let right = self.right_sides(self.shape.dofs());
                    self.computed(Command::Solve { right });
                }
                1 => self.limit(),
                2 => self.friction(),
                _ => self.fill(),
            }
        }
    }

    fn limit(&mut self) {
        if let Some([link, axis]) = self.some_axis(false) {
            let mut limit = self.hand.limit();
            limit.erp_inv_dt = floats::within(&mut self.hand.rng, 20.0);
            self.computed(Command::Limit { link, axis, limit });
        }
    }

    fn friction(&mut self) {
        if let Some([link, axis]) = self.some_axis(false) {
            let (dt, cfm_coeff) = (floats::up_to(&mut self.hand.rng, 0.1), self.hand.cfm_coeff());
            self.computed(Command::Friction {
                link,
                axis,
                dt,
                cfm_coeff,
            });
        }
    }

    fn fill(&mut self) {
        let link = self.some_link() as u32;
        let [x, y, torque] = [0; 3].map(|_| floats::within(&mut self.hand.rng, 1.0));
        self.computed(Command::Filljac {
            link,
            force: [x, y],
            torque,
        });
    }
}
