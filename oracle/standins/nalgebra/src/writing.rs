//! What writes a matrix: views, copies, sums of products.
use crate::dim::{Const, Dim, DimRange, Dyn, U1};
use crate::matrix::{DMatrix, Matrix, MatrixViewMut, check, matrix_of};
use crate::storage::{Storage, StorageMut, ViewStorageMut};
use core::marker::PhantomData as P;

type ViewMutOf<'a, R, C, R0, C0, S> =
    MatrixViewMut<'a, f32, R, C, <S as Storage<f32, R0, C0>>::RStride, <S as Storage<f32, R0, C0>>::CStride>;

impl<R: Dim, C: Dim, S: StorageMut<f32, R, C>> Matrix<f32, R, C, S> {
    fn sub_mut<'a, R2: Dim, C2: Dim>(
        &mut self,
        at: (usize, usize),
        size: (usize, usize),
    ) -> ViewMutOf<'a, R2, C2, R, C, S> {
        check(self.shape(), at, size);
        let strides = self.data.strides();
        let ptr = self.data.ptr_mut().wrapping_add(at.0 * strides.0 + at.1 * strides.1);
        matrix_of(ViewStorageMut {
            ptr,
            shape: size,
            strides,
            _p: P,
        })
    }
    pub fn rows_mut(&mut self, i: usize, n: usize) -> ViewMutOf<'_, Dyn, C, R, C, S> {
        self.sub_mut((i, 0), (n, self.ncols()))
    }
    pub fn fixed_rows_mut<const N: usize>(&mut self, i: usize) -> ViewMutOf<'_, Const<N>, C, R, C, S> {
        self.sub_mut((i, 0), (N, self.ncols()))
    }
    pub fn columns_mut(&mut self, j: usize, n: usize) -> ViewMutOf<'_, R, Dyn, R, C, S> {
        self.sub_mut((0, j), (self.nrows(), n))
    }
    pub fn fixed_view_mut<const N: usize, const M: usize>(
        &mut self,
        i: usize,
        j: usize,
    ) -> ViewMutOf<'_, Const<N>, Const<M>, R, C, S> {
        self.sub_mut((i, j), (N, M))
    }
    pub fn rows_range_mut<D: DimRange>(&mut self, d: D) -> ViewMutOf<'_, D::Size, C, R, C, S> {
        let (b, n) = d.bounds(self.nrows());
        self.sub_mut((b, 0), (n, self.ncols()))
    }
    pub fn columns_range_mut<D: DimRange>(&mut self, d: D) -> ViewMutOf<'_, R, D::Size, R, C, S> {
        let (b, n) = d.bounds(self.ncols());
        self.sub_mut((0, b), (self.nrows(), n))
    }
    pub fn rows_range_pair_mut<D1: DimRange, D2: DimRange>(
        &mut self,
        d1: D1,
        d2: D2,
    ) -> (ViewMutOf<'_, D1::Size, C, R, C, S>, ViewMutOf<'_, D2::Size, C, R, C, S>) {
        let (r, c) = self.shape();
        let ((b1, n1), (b2, n2)) = (d1.bounds(r), d2.bounds(r));
        assert!(
            b1 + n1 <= b2 || b2 + n2 <= b1,
            "Rows range pair: the views must not overlap."
        );
        (self.sub_mut((b1, 0), (n1, c)), self.sub_mut((b2, 0), (n2, c)))
    }
    pub fn columns_range_pair_mut<D1: DimRange, D2: DimRange>(
        &mut self,
        d1: D1,
        d2: D2,
    ) -> (ViewMutOf<'_, R, D1::Size, R, C, S>, ViewMutOf<'_, R, D2::Size, R, C, S>) {
        let (r, c) = self.shape();
        let ((b1, n1), (b2, n2)) = (d1.bounds(c), d2.bounds(c));
        assert!(
            b1 + n1 <= b2 || b2 + n2 <= b1,
            "Columns range pair: the views must not overlap."
        );
        (self.sub_mut((0, b1), (r, n1)), self.sub_mut((0, b2), (r, n2)))
    }
    pub fn column_iter_mut(&mut self) -> impl Iterator<Item = ViewMutOf<'_, R, U1, R, C, S>> {
        let (r, c) = self.shape();
        (0..c)
            .map(|j| self.sub_mut((0, j), (r, 1)))
            .collect::<Vec<_>>()
            .into_iter()
    }
    pub(crate) fn each(&mut self, mut f: impl FnMut(usize, usize, &mut f32)) {
        let (r, c) = self.shape();
        for j in 0..c {
            for i in 0..r {
                f(i, j, &mut self[(i, j)]);
            }
        }
    }
    pub fn fill(&mut self, v: f32) {
        self.each(|_, _, x| *x = v);
    }
    pub fn copy_from<R2: Dim, C2: Dim, S2: Storage<f32, R2, C2>>(&mut self, o: &Matrix<f32, R2, C2, S2>) {
        assert_eq!(
            self.shape(),
            o.shape(),
            "Unable to copy from a matrix with a different shape."
        );
        self.each(|i, j, x| *x = o[(i, j)]);
    }
    pub fn component_mul_assign<R2: Dim, C2: Dim, S2: Storage<f32, R2, C2>>(&mut self, o: &Matrix<f32, R2, C2, S2>) {
        assert_eq!(
            self.shape(),
            o.shape(),
            "Componentwise mul: mismatched matrix dimensions."
        );
        self.each(|i, j, x| *x *= o[(i, j)]);
    }
    pub fn zip_apply<R2: Dim, C2: Dim, S2: Storage<f32, R2, C2>>(
        &mut self,
        o: &Matrix<f32, R2, C2, S2>,
        mut f: impl FnMut(&mut f32, f32),
    ) {
        assert_eq!(
            self.shape(),
            o.shape(),
            "Matrix simultaneous traversal error: dimension mismatch."
        );
        self.each(|i, j, x| f(x, o[(i, j)]));
    }
    /// `self = a · x + b · self`.
    pub fn axpy<R2: Dim, C2: Dim, S2: Storage<f32, R2, C2>>(&mut self, a: f32, o: &Matrix<f32, R2, C2, S2>, b: f32) {
        assert_eq!(self.shape(), o.shape(), "Axpy: mismatched vector shapes.");
        self.each(|i, j, x| *x = a * o[(i, j)] + if b == 0.0 { 0.0 } else { b * *x });
    }
    /// `self = alpha · a ⊙ b + beta · self`.
    pub fn cmpy<R2: Dim, C2: Dim, SA: Storage<f32, R2, C2>, R3: Dim, C3: Dim, SB: Storage<f32, R3, C3>>(
        &mut self,
        alpha: f32,
        a: &Matrix<f32, R2, C2, SA>,
        b: &Matrix<f32, R3, C3, SB>,
        beta: f32,
    ) {
        assert_eq!(self.shape(), a.shape(), "Componentwise mul: mismatched dimensions.");
        assert_eq!(self.shape(), b.shape(), "Componentwise mul: mismatched dimensions.");
        self.each(|i, j, x| *x = alpha * a[(i, j)] * b[(i, j)] + if beta == 0.0 { 0.0 } else { beta * *x });
    }
    /// `self = alpha · a · b + beta · self`.
    pub fn gemm<R2: Dim, C2: Dim, SA: Storage<f32, R2, C2>, R3: Dim, C3: Dim, SB: Storage<f32, R3, C3>>(
        &mut self,
        alpha: f32,
        a: &Matrix<f32, R2, C2, SA>,
        b: &Matrix<f32, R3, C3, SB>,
        beta: f32,
    ) {
        assert_eq!(a.ncols(), b.nrows(), "gemm: dimensions mismatch for multiplication.");
        assert_eq!(
            self.shape(),
            (a.nrows(), b.ncols()),
            "gemm: dimensions mismatch for addition."
        );
        self.each(|i, j, x| {
            let s = (0..a.ncols()).fold(0.0, |s, k| s + a[(i, k)] * b[(k, j)]);
            *x = alpha * s + if beta == 0.0 { 0.0 } else { beta * *x };
        });
    }
    /// `self = alpha · aᵀ · b + beta · self`.
    pub fn gemm_tr<R2: Dim, C2: Dim, SA: Storage<f32, R2, C2>, R3: Dim, C3: Dim, SB: Storage<f32, R3, C3>>(
        &mut self,
        alpha: f32,
        a: &Matrix<f32, R2, C2, SA>,
        b: &Matrix<f32, R3, C3, SB>,
        beta: f32,
    ) {
        assert_eq!(a.nrows(), b.nrows(), "gemm: dimensions mismatch for multiplication.");
        assert_eq!(
            self.shape(),
            (a.ncols(), b.ncols()),
            "gemm: dimensions mismatch for addition."
        );
        self.each(|i, j, x| {
            let s = (0..a.nrows()).fold(0.0, |s, k| s + a[(k, i)] * b[(k, j)]);
            *x = alpha * s + if beta == 0.0 { 0.0 } else { beta * *x };
        });
    }
    pub fn gemv_tr<R2: Dim, C2: Dim, SA: Storage<f32, R2, C2>, R3: Dim, C3: Dim, SB: Storage<f32, R3, C3>>(
        &mut self,
        alpha: f32,
        a: &Matrix<f32, R2, C2, SA>,
        x: &Matrix<f32, R3, C3, SB>,
        beta: f32,
    ) {
        self.gemm_tr(alpha, a, x, beta)
    }
    /// `self = alpha · rhsᵀ · mid · rhs + beta · self`.
    pub fn quadform<R2: Dim, C2: Dim, SA: Storage<f32, R2, C2>, R3: Dim, C3: Dim, SB: Storage<f32, R3, C3>>(
        &mut self,
        alpha: f32,
        mid: &Matrix<f32, R2, C2, SA>,
        rhs: &Matrix<f32, R3, C3, SB>,
        beta: f32,
    ) {
        let mut t = DMatrix::zeros(mid.nrows(), rhs.ncols());
        t.gemm(1.0, mid, rhs, 0.0);
        self.gemm_tr(alpha, rhs, &t, beta);
    }
}
