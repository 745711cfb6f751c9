//! `*`, `+` and `+=`.
use crate::dim::Dim;
use crate::matrix::{Matrix, OMatrix, owned};
use crate::storage::{Alloc, Storage, StorageMut};
use core::ops::{Add, AddAssign, Mul};

macro_rules! mul {
    ($A:ty, $B:ty) => {
        impl<R1, C1: Dim, S1: Storage<f32, R1, C1>, R2: Dim, C2: Dim, S2: Storage<f32, R2, C2>> Mul<$B> for $A
        where
            R1: Alloc<f32, C2>,
        {
            type Output = OMatrix<f32, R1, C2>;
            fn mul(self, b: $B) -> Self::Output {
                assert_eq!(
                    self.ncols(),
                    b.nrows(),
                    "Matrix multiplication dimensions mismatch."
                );
                owned(self.nrows(), b.ncols(), |i, j| {
                    (0..self.ncols()).fold(0.0, |s, k| s + self[(i, k)] * b[(k, j)])
                })
            }
        }
    };
}
mul!(Matrix<f32, R1, C1, S1>, Matrix<f32, R2, C2, S2>);
mul!(Matrix<f32, R1, C1, S1>, &Matrix<f32, R2, C2, S2>);
mul!(&Matrix<f32, R1, C1, S1>, Matrix<f32, R2, C2, S2>);
mul!(&Matrix<f32, R1, C1, S1>, &Matrix<f32, R2, C2, S2>);
impl<R: Alloc<f32, C>, C: Dim, S: Storage<f32, R, C>> Mul<f32> for Matrix<f32, R, C, S> {
    type Output = OMatrix<f32, R, C>;
    fn mul(self, b: f32) -> Self::Output {
        owned(self.nrows(), self.ncols(), |i, j| self[(i, j)] * b)
    }
}
impl<R: Alloc<f32, C>, C: Dim, S: Storage<f32, R, C>, S2: Storage<f32, R, C>> Add<Matrix<f32, R, C, S2>>
    for Matrix<f32, R, C, S>
{
    type Output = OMatrix<f32, R, C>;
    fn add(self, b: Matrix<f32, R, C, S2>) -> Self::Output {
        assert_eq!(
            self.shape(),
            b.shape(),
            "Matrix addition/subtraction dimensions mismatch."
        );
        owned(self.nrows(), self.ncols(), |i, j| self[(i, j)] + b[(i, j)])
    }
}
impl<R: Dim, C: Dim, S: StorageMut<f32, R, C>, R2: Dim, C2: Dim, S2: Storage<f32, R2, C2>>
    AddAssign<Matrix<f32, R2, C2, S2>> for Matrix<f32, R, C, S>
{
    fn add_assign(&mut self, b: Matrix<f32, R2, C2, S2>) {
        assert_eq!(
            self.shape(),
            b.shape(),
            "Matrix addition/subtraction dimensions mismatch."
        );
        self.each(|i, j, x| *x += b[(i, j)]);
    }
}
