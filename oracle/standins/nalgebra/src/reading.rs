//! What reads a matrix: shapes, views, products that give a number.
use crate::dim::{Const, Dim, DimRange, Dyn, U1};
use crate::matrix::{Matrix, MatrixView, OMatrix, check, matrix_of, owned};
use crate::storage::{Alloc, Storage, StorageMut, ViewStorage};
use core::marker::PhantomData as P;
use core::ops::RangeFrom;

type ViewOf<'a, R, C, R0, C0, S> =
    MatrixView<'a, f32, R, C, <S as Storage<f32, R0, C0>>::RStride, <S as Storage<f32, R0, C0>>::CStride>;

impl<R: Dim, C: Dim, S: Storage<f32, R, C>> Matrix<f32, R, C, S> {
    pub fn shape(&self) -> (usize, usize) {
        self.data.shape()
    }
    pub fn nrows(&self) -> usize {
        self.shape().0
    }
    pub fn ncols(&self) -> usize {
        self.shape().1
    }
    pub fn len(&self) -> usize {
        self.nrows() * self.ncols()
    }
    pub fn is_empty(&self) -> bool {
        self.len() == 0
    }
    fn sub<R2: Dim, C2: Dim>(&self, at: (usize, usize), size: (usize, usize)) -> ViewOf<'_, R2, C2, R, C, S> {
        check(self.shape(), at, size);
        let strides = self.data.strides();
        let ptr = self.data.ptr().wrapping_add(at.0 * strides.0 + at.1 * strides.1);
        matrix_of(ViewStorage {
            ptr,
            shape: size,
            strides,
            _p: P,
        })
    }
    pub fn rows(&self, i: usize, n: usize) -> ViewOf<'_, Dyn, C, R, C, S> {
        self.sub((i, 0), (n, self.ncols()))
    }
    pub fn fixed_rows<const N: usize>(&self, i: usize) -> ViewOf<'_, Const<N>, C, R, C, S> {
        self.sub((i, 0), (N, self.ncols()))
    }
    pub fn columns(&self, j: usize, n: usize) -> ViewOf<'_, R, Dyn, R, C, S> {
        self.sub((0, j), (self.nrows(), n))
    }
    pub fn view(&self, at: (usize, usize), size: (usize, usize)) -> ViewOf<'_, Dyn, Dyn, R, C, S> {
        self.sub(at, size)
    }
    pub fn index(&self, ij: (RangeFrom<usize>, usize)) -> ViewOf<'_, Dyn, U1, R, C, S> {
        let (b, n) = ij.0.bounds(self.nrows());
        self.sub((b, ij.1), (n, 1))
    }
    pub fn into_owned(self) -> OMatrix<f32, R, C>
    where
        R: Alloc<f32, C>,
    {
        let (r, c) = self.shape();
        owned(r, c, |i, j| self[(i, j)])
    }
    pub fn transpose(&self) -> OMatrix<f32, C, R>
    where
        C: Alloc<f32, R>,
    {
        let (r, c) = self.shape();
        owned(c, r, |i, j| self[(j, i)])
    }
    pub fn iter(&self) -> impl Iterator<Item = &f32> {
        let (r, c) = self.shape();
        (0..c).flat_map(move |j| (0..r).map(move |i| &self[(i, j)]))
    }
    pub fn dot<R2: Dim, C2: Dim, S2: Storage<f32, R2, C2>>(&self, o: &Matrix<f32, R2, C2, S2>) -> f32 {
        assert_eq!(self.shape(), o.shape(), "Dot product dimensions mismatch.");
        self.iter().zip(o.iter()).fold(0.0, |a, (x, y)| a + x * y)
    }
    pub fn norm_squared(&self) -> f32 {
        self.iter().fold(0.0, |a, x| a + x * x)
    }
    pub fn norm(&self) -> f32 {
        self.norm_squared().sqrt()
    }
    pub fn amax(&self) -> f32 {
        self.iter().fold(0.0, |a, x| if x.abs() > a { x.abs() } else { a })
    }
    /// `out = selfᵀ · rhs`.
    pub fn tr_mul_to<R2: Dim, C2: Dim, S2: Storage<f32, R2, C2>, R3: Dim, C3: Dim, S3: StorageMut<f32, R3, C3>>(
        &self,
        rhs: &Matrix<f32, R2, C2, S2>,
        out: &mut Matrix<f32, R3, C3, S3>,
    ) {
        assert_eq!(self.nrows(), rhs.nrows(), "tr_mul_to dimensions mismatch.");
        assert_eq!(
            out.shape(),
            (self.ncols(), rhs.ncols()),
            "tr_mul_to output dimensions mismatch."
        );
        for i in 0..self.ncols() {
            for j in 0..rhs.ncols() {
                out[(i, j)] = (0..self.nrows()).fold(0.0, |a, k| a + self[(k, i)] * rhs[(k, j)]);
            }
        }
    }
}
