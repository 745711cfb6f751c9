//! Poses of the plane.

use crate::floats::finite;
use crate::point::Point;
use crate::rotation::Rotation;

/// A rotation, then a translation.
#[derive(Clone, Copy, Debug, PartialEq)]
#[repr(C)]
pub struct Pose {
    pub rot: Rotation,
    pub at: Point,
}

impl Pose {
    pub const IDENTITY: Pose = Pose {
        rot: Rotation::IDENTITY,
        at: Point::ZERO,
    };

    pub fn new(re: f32, im: f32, x: f32, y: f32) -> Pose {
        Pose {
            rot: Rotation { re, im },
            at: Point { x, y },
        }
    }

    /// Where a point goes.
    pub fn on(self, p: Point) -> Point {
        self.rot.turn(p).plus(self.at)
    }

    pub fn times(self, b: Pose) -> Pose {
        Pose {
            rot: self.rot.times(b.rot),
            at: self.on(b.at),
        }
    }

    pub fn inverse(self) -> Pose {
        let rot = self.rot.inverse();
        Pose {
            rot,
            at: rot.turn(self.at).negated(),
        }
    }

    pub fn floats(self) -> [f32; 4] {
        [self.rot.re, self.rot.im, self.at.x, self.at.y]
    }

    pub fn is_finite(self) -> bool {
        finite(&self.floats())
    }
}
