//! Stand-in for `simba`: the scalar f32 face of `SimdRealField`.
pub mod simd {
    use core::ops::*;
    pub trait SimdRealField:
        Copy + Add<Output = Self> + Sub<Output = Self> + Mul<Output = Self> + Div<Output = Self> + Neg<Output = Self>
    {
        type Element;
        type SimdBool;
        fn splat(v: Self::Element) -> Self;
        fn zero() -> Self;
        fn one() -> Self;
        fn simd_two_pi() -> Self;
        fn simd_eq(self, o: Self) -> Self::SimdBool;
        fn simd_ne(self, o: Self) -> Self::SimdBool;
        /// `self` where `cond` holds, `other` elsewhere.
        fn select(self, cond: Self::SimdBool, other: Self) -> Self;
    }
    impl SimdRealField for f32 {
        type Element = f32;
        type SimdBool = bool;
        fn splat(v: f32) -> f32 {
            v
        }
        fn zero() -> f32 {
            0.0
        }
        fn one() -> f32 {
            1.0
        }
        fn simd_two_pi() -> f32 {
            core::f32::consts::TAU
        }
        fn simd_eq(self, o: f32) -> bool {
            self == o
        }
        fn simd_ne(self, o: f32) -> bool {
            self != o
        }
        fn select(self, cond: bool, other: f32) -> f32 {
            if cond { self } else { other }
        }
    }
}
