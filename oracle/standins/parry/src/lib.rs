//! Stand-in for `parry::math` (glam-like Vec2, Rot2, Pose2, Mat2).
pub mod math {
    use core::ops::*;

    #[repr(C)]
    #[derive(Copy, Clone, Debug, Default, PartialEq)]
    pub struct Vec2 {
        pub x: f32,
        pub y: f32,
    }
    impl Vec2 {
        pub const ZERO: Self = Self { x: 0.0, y: 0.0 };
        pub const X: Self = Self { x: 1.0, y: 0.0 };
        pub const Y: Self = Self { x: 0.0, y: 1.0 };
        pub const fn new(x: f32, y: f32) -> Self {
            Self { x, y }
        }
        pub fn length(self) -> f32 {
            (self.x * self.x + self.y * self.y).sqrt()
        }
    }
    impl Add for Vec2 {
        type Output = Self;
        fn add(self, o: Self) -> Self {
            Self::new(self.x + o.x, self.y + o.y)
        }
    }
    impl Sub for Vec2 {
        type Output = Self;
        fn sub(self, o: Self) -> Self {
            Self::new(self.x - o.x, self.y - o.y)
        }
    }
    impl Neg for Vec2 {
        type Output = Self;
        fn neg(self) -> Self {
            Self::new(-self.x, -self.y)
        }
    }
    impl Mul<f32> for Vec2 {
        type Output = Self;
        fn mul(self, o: f32) -> Self {
            Self::new(self.x * o, self.y * o)
        }
    }
    impl Mul<Vec2> for f32 {
        type Output = Vec2;
        fn mul(self, o: Vec2) -> Vec2 {
            Vec2::new(self * o.x, self * o.y)
        }
    }
    impl Mul for Vec2 {
        type Output = Self;
        fn mul(self, o: Self) -> Self {
            Self::new(self.x * o.x, self.y * o.y)
        }
    }
    impl AddAssign for Vec2 {
        fn add_assign(&mut self, o: Self) {
            *self = *self + o;
        }
    }
    impl SubAssign for Vec2 {
        fn sub_assign(&mut self, o: Self) {
            *self = *self - o;
        }
    }
    impl Index<usize> for Vec2 {
        type Output = f32;
        fn index(&self, i: usize) -> &f32 {
            match i {
                0 => &self.x,
                1 => &self.y,
                _ => panic!("index out of bounds"),
            }
        }
    }
    impl From<Vec2> for na::Vector2<f32> {
        fn from(v: Vec2) -> Self {
            na::Vector2::from_array([v.x, v.y])
        }
    }

    /// `parry::math::VectorExt`, the part used.
    pub trait VectorExt: Sized {
        fn ith(i: usize, val: f32) -> Self;
    }
    impl VectorExt for Vec2 {
        fn ith(i: usize, val: f32) -> Self {
            match i {
                0 => Self::new(val, 0.0),
                1 => Self::new(0.0, val),
                _ => panic!("index out of bounds"),
            }
        }
    }

    #[repr(C)]
    #[derive(Copy, Clone, Debug, Default, PartialEq)]
    pub struct Vec3 {
        pub x: f32,
        pub y: f32,
        pub z: f32,
    }
    impl Index<usize> for Vec3 {
        type Output = f32;
        fn index(&self, i: usize) -> &f32 {
            match i {
                0 => &self.x,
                1 => &self.y,
                2 => &self.z,
                _ => panic!("index out of bounds"),
            }
        }
    }
    impl IndexMut<usize> for Vec3 {
        fn index_mut(&mut self, i: usize) -> &mut f32 {
            match i {
                0 => &mut self.x,
                1 => &mut self.y,
                2 => &mut self.z,
                _ => panic!("index out of bounds"),
            }
        }
    }

    #[derive(Copy, Clone, Debug, PartialEq)]
    pub struct Mat2 {
        pub x_axis: Vec2,
        pub y_axis: Vec2,
    }
    impl Mat2 {
        pub fn from_cols(x_axis: Vec2, y_axis: Vec2) -> Self {
            Self { x_axis, y_axis }
        }
    }
    pub type Matrix = Mat2;

    /// A rotation as a unit complex number.
    #[derive(Copy, Clone, Debug, PartialEq)]
    pub struct Rot2 {
        pub re: f32,
        pub im: f32,
    }
    impl Rot2 {
        pub const IDENTITY: Self = Self { re: 1.0, im: 0.0 };
        pub fn from_angle(a: f32) -> Self {
            let (im, re) = a.sin_cos();
            Self { re, im }
        }
        pub fn from_matrix_unchecked(m: Mat2) -> Self {
            Self {
                re: m.x_axis.x,
                im: m.x_axis.y,
            }
        }
        pub fn inverse(self) -> Self {
            Self {
                re: self.re,
                im: -self.im,
            }
        }
        pub fn angle(self) -> f32 {
            self.im.atan2(self.re)
        }
    }
    impl Mul for Rot2 {
        type Output = Self;
        fn mul(self, b: Self) -> Self {
            Self {
                re: self.re * b.re - self.im * b.im,
                im: self.re * b.im + self.im * b.re,
            }
        }
    }
    impl Mul<Vec2> for Rot2 {
        type Output = Vec2;
        fn mul(self, v: Vec2) -> Vec2 {
            Vec2::new(self.re * v.x - self.im * v.y, self.im * v.x + self.re * v.y)
        }
    }

    #[derive(Copy, Clone, Debug, PartialEq)]
    pub struct Pose2 {
        pub rotation: Rot2,
        pub translation: Vec2,
    }
    impl Pose2 {
        pub const IDENTITY: Self = Self {
            rotation: Rot2::IDENTITY,
            translation: Vec2::ZERO,
        };
        pub fn from_rotation(rotation: Rot2) -> Self {
            Self {
                rotation,
                translation: Vec2::ZERO,
            }
        }
        pub fn from_translation(translation: Vec2) -> Self {
            Self {
                rotation: Rot2::IDENTITY,
                translation,
            }
        }
        pub fn inverse(&self) -> Self {
            let r = self.rotation.inverse();
            Self {
                rotation: r,
                translation: -(r * self.translation),
            }
        }
    }
    impl Mul for Pose2 {
        type Output = Self;
        fn mul(self, b: Self) -> Self {
            Self {
                rotation: self.rotation * b.rotation,
                translation: self.rotation * b.translation + self.translation,
            }
        }
    }
    /// A pose times a vector moves the vector as a point.
    impl Mul<Vec2> for Pose2 {
        type Output = Vec2;
        fn mul(self, p: Vec2) -> Vec2 {
            self.rotation * p + self.translation
        }
    }
}
