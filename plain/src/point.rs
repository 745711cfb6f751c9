//! Points of the plane.

use crate::floats::finite;

#[derive(Clone, Copy, Debug, PartialEq)]
#[repr(C)]
pub struct Point {
    pub x: f32,
    pub y: f32,
}

impl Point {
    pub const ZERO: Point = Point { x: 0.0, y: 0.0 };

    pub fn plus(self, b: Point) -> Point {
        Point {
            x: self.x + b.x,
            y: self.y + b.y,
        }
    }

    pub fn minus(self, b: Point) -> Point {
        Point {
            x: self.x - b.x,
            y: self.y - b.y,
        }
    }

    pub fn negated(self) -> Point {
        Point { x: -self.x, y: -self.y }
    }

    pub fn floats(self) -> [f32; 2] {
        [self.x, self.y]
    }

    pub fn is_finite(self) -> bool {
        finite(&self.floats())
    }
}
