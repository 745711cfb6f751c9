//! Poses of the plane, and the axes of a joint.

use crate::Refusal;
use crate::abi::{Point, Pose, Rotation};
use crate::rotation::rotate;

/// The axes of a joint, in the order of a mask's bits.
pub mod axis {
    /// Along X.
    pub const X: u32 = 0;
    /// Along Y.
    pub const Y: u32 = 1;
    /// The angle.
    pub const ANGLE: u32 = 2;
}

impl Pose {
    /// A pose that neither turns nor moves.
    pub const IDENTITY: Pose = Pose::at(0.0, 0.0);

    /// A pose that moves and turns nothing.
    #[must_use]
    pub const fn at(x: f32, y: f32) -> Pose {
        Pose { re: 1.0, im: 0.0, x, y }
    }

    /// A pose that turns by an angle and moves.
    ///
    /// # Errors
    ///
    /// [`Refusal::NotFinite`] and [`Refusal::AngleTooFar`] for the angle.
    pub fn turned(angle: f32, x: f32, y: f32) -> Result<Pose, Refusal> {
        let Rotation { re, im } = rotate(angle)?;
        Ok(Pose { re, im, x, y })
    }

    /// Its rotation.
    #[must_use]
    pub const fn rotation(self) -> Rotation {
        Rotation {
            re: self.re,
            im: self.im,
        }
    }

    /// Its translation.
    #[must_use]
    pub const fn translation(self) -> Point {
        Point { x: self.x, y: self.y }
    }
}

impl Default for Pose {
    fn default() -> Pose {
        Pose::IDENTITY
    }
}
