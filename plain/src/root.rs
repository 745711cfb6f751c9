//! Root changes: the root comes free or is fixed, at a pose.

use crate::arm::Arm;
use crate::joint::Joint;
use crate::kinematics::{blocks_of, full_working};
use crate::limits::{AXES, TABLES};
use crate::pose::Pose;
use crate::refusal::{Answer, Refusal::*};

pub use script::RootType;

impl Arm {
    /// Put the root at a pose, free or fixed, and work everything out. With the type the root's row entries come or go.
    pub fn change_root(&mut self, tables: &mut [f32], to: RootType, pose: Pose) -> Answer {
        self.tested(|rule| match rule {
            Short => tables.len() < TABLES,
            Number => self.link_count == 0,
            NotFinite => !pose.is_finite(),
            NotUnit => !pose.rot.is_unit(),
            _ => false,
        })?;
        let mut root = self.links[0];
        let from = if root.joint.locked == 0 {
            RootType::Free
        } else {
            RootType::Fixed
        };
        match (from, to) {
            (RootType::Free, RootType::Free) => root.joint.set_free_pos(pose),
            (RootType::Fixed, RootType::Fixed) => root.joint.frame1 = pose,
            (_, RootType::Free) => root.joint = Joint::free(pose),
            (_, RootType::Fixed) => root.joint = Joint::fixed(pose),
        }
        let link_of = |i| if i == 0 { &root } else { &self.links[i] };
        let kept = full_working(self.link_count, link_of, blocks_of(tables))?;

        let dofs = self.dofs();
        for row in &mut self.rows {
            match (from, to) {
                (RootType::Fixed, RootType::Free) => {
                    row.copy_within(..dofs, AXES);
                    row[..AXES].fill(0.0);
                    row[dofs + AXES..].fill(0.0);
                }
                (RootType::Free, RootType::Fixed) => {
                    row.copy_within(AXES..dofs, 0);
                    row[dofs - AXES..].fill(0.0);
                }
                _ => {}
            }
        }
        self.links[0] = root;
        self.keep(&kept);
        Ok(())
    }
}
