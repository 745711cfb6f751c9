//! One joint: what ties a link to its parent.

use crate::floats::flags;
use crate::limits::AXES;
use crate::masks::{self, ALL, ANGLE, free_axes, is_free};
use crate::point::Point;
use crate::pose::Pose;
use crate::rotation::Rotation;

#[derive(Clone, Copy, Debug, PartialEq)]
#[repr(C)]
pub struct Joint {
    pub locked: u8,
    pub limit: u8,
    pub motor: u8,
    /// Its frame on the parent.
    pub frame1: Pose,
    /// Its frame on the link.
    pub frame2: Pose,
    pub coords: [f32; AXES],
    pub rot: Rotation,
    pub stiffness: [f32; AXES],
    pub rest: [f32; AXES],
}

impl Joint {
    /// At rest under these masks and frames.
    pub const fn new(locked: u8, limit: u8, motor: u8, frame1: Pose, frame2: Pose) -> Joint {
        Joint {
            locked,
            limit,
            motor,
            frame1,
            frame2,
            coords: [0.0; AXES],
            rot: Rotation::IDENTITY,
            stiffness: [0.0; AXES],
            rest: [0.0; AXES],
        }
    }

    /// Holds a root at a pose.
    pub const fn fixed(pose: Pose) -> Joint {
        Joint::new(ALL, 0, 0, pose, Pose::IDENTITY)
    }

    /// Leaves a root free, for now at a pose.
    pub fn free(pose: Pose) -> Joint {
        let mut joint = Joint::new(0, 0, 0, Pose::IDENTITY, Pose::IDENTITY);
        joint.set_free_pos(pose);
        joint
    }

    /// Put a free root at a pose; the angle coordinate isn't touched.
    pub fn set_free_pos(&mut self, pose: Pose) {
        self.coords[0] = pose.at.x;
        self.coords[1] = pose.at.y;
        self.rot = pose.rot;
    }

    pub fn dofs(&self) -> usize {
        masks::dofs(self.locked)
    }

    /// The link's pose as its parent sees it.
    pub fn body_to_parent(&self) -> Pose {
        let mut pose = Pose {
            rot: self.rot,
            at: Point::ZERO,
        }
        .times(self.frame2.inverse());
        if is_free(self.locked, 0) {
            pose.at.x += self.coords[0];
        }
        if is_free(self.locked, 1) {
            pose.at.y += self.coords[1];
        }
        self.frame1.times(pose)
    }

    /// Set one coordinate; the joint turns with its angle.
    pub fn set_coordinate(&mut self, axis: usize, value: f32) {
        self.coords[axis] = value;
        if axis == ANGLE {
            self.rot = Rotation::by(value);
        }
    }

    /// Where an axis comes to in time `dt` at its `velocity`.
    pub fn moved_on(&self, axis: usize, velocity: f32, dt: f32) -> f32 {
        self.coords[axis] + velocity * dt
    }

    /// Move the free axes on by `dt`. `velocities` begin with this joint's own.
    pub fn integrate(&mut self, velocities: &[f32], dt: f32) {
        for (axis, &velocity) in free_axes(self.locked).zip(velocities) {
            self.set_coordinate(axis, self.moved_on(axis, velocity, dt));
        }
    }

    /// `accelerations`, which begin with this joint's own, each on its axis.
    pub fn jacobian_mul_coordinates(&self, accelerations: &[f32]) -> [f32; AXES] {
        let mut on_axes = [0.0; AXES];
        for (axis, &acceleration) in free_axes(self.locked).zip(accelerations) {
            on_axes[axis] = acceleration;
        }
        on_axes
    }

    /// The flags of its floats.
    #[inline]
    pub fn flags(&self) -> u32 {
        flags(&self.frame1.floats())
            | flags(&self.frame2.floats())
            | flags(&self.coords)
            | flags(&self.rot.floats())
            | flags(&self.stiffness)
            | flags(&self.rest)
    }
}
