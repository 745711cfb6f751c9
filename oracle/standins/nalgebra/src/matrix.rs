//! The matrix, its names by shape, its constructors and its indices.
use crate::dim::{Const, Dim, Dyn, U1};
use crate::storage::{Alloc, ArrayStorage, Storage, StorageMut, VecStorage, ViewStorage, ViewStorageMut};
use core::fmt;
use core::marker::PhantomData as P;
use core::ops::{Index, IndexMut};

#[repr(C)]
pub struct Matrix<T, R, C, S> {
    pub data: S,
    _p: P<(T, R, C)>,
}
impl<T, R, C, S: Clone> Clone for Matrix<T, R, C, S> {
    fn clone(&self) -> Self {
        matrix_of(self.data.clone())
    }
}
impl<T, R, C, S: Copy> Copy for Matrix<T, R, C, S> {}
impl<R: Dim, C: Dim, S: Storage<f32, R, C>> fmt::Debug for Matrix<f32, R, C, S> {
    fn fmt(&self, f: &mut fmt::Formatter<'_>) -> fmt::Result {
        let (r, c) = self.shape();
        f.debug_list()
            .entries((0..r).map(|i| (0..c).map(|j| self[(i, j)]).collect::<Vec<_>>()))
            .finish()
    }
}
pub(crate) fn matrix_of<T, R, C, S>(data: S) -> Matrix<T, R, C, S> {
    Matrix { data, _p: P }
}

pub type OMatrix<T, R, C> = Matrix<T, R, C, <R as Alloc<T, C>>::Buf>;
pub type SMatrix<T, const R: usize, const C: usize> = Matrix<T, Const<R>, Const<C>, ArrayStorage<T, R, C>>;
pub type SVector<T, const D: usize> = Matrix<T, Const<D>, U1, ArrayStorage<T, D, 1>>;
pub type Vector2<T> = SVector<T, 2>;
pub type Vector3<T> = SVector<T, 3>;
pub type RowVector2<T> = SMatrix<T, 1, 2>;
pub type Matrix2<T> = SMatrix<T, 2, 2>;
pub type DMatrix<T> = Matrix<T, Dyn, Dyn, VecStorage<T, Dyn, Dyn>>;
pub type DVector<T> = Matrix<T, Dyn, U1, VecStorage<T, Dyn, U1>>;
pub type MatrixView<'a, T, R, C, RS = U1, CS = R> = Matrix<T, R, C, ViewStorage<'a, T, R, C, RS, CS>>;
pub type MatrixViewMut<'a, T, R, C, RS = U1, CS = R> = Matrix<T, R, C, ViewStorageMut<'a, T, R, C, RS, CS>>;
pub type DVectorView<'a, T, RS = U1, CS = Dyn> = MatrixView<'a, T, Dyn, U1, RS, CS>;
pub type DVectorViewMut<'a, T, RS = U1, CS = Dyn> = MatrixViewMut<'a, T, Dyn, U1, RS, CS>;

#[macro_export]
macro_rules! vector { ($($x:expr),* $(,)?) => { $crate::SVector::from_array([$($x),*]) } }

pub(crate) fn owned<R: Alloc<f32, C>, C: Dim>(
    r: usize,
    c: usize,
    mut f: impl FnMut(usize, usize) -> f32,
) -> OMatrix<f32, R, C> {
    let mut m: OMatrix<f32, R, C> = matrix_of(R::alloc(r, c));
    for j in 0..c {
        for i in 0..r {
            m[(i, j)] = f(i, j);
        }
    }
    m
}

// Constructors.
impl<const R: usize, const C: usize> SMatrix<f32, R, C> {
    pub fn zeros() -> Self {
        matrix_of(ArrayStorage([[0.0; R]; C]))
    }
    pub fn identity() -> Self {
        owned(R, C, |i, j| if i == j { 1.0 } else { 0.0 })
    }
}
impl<const D: usize> SVector<f32, D> {
    pub fn from_array(a: [f32; D]) -> Self {
        matrix_of(ArrayStorage([a]))
    }
}
impl<const R: usize> Matrix<f32, Const<R>, Dyn, VecStorage<f32, Const<R>, Dyn>> {
    pub fn zeros(ncols: usize) -> Self {
        owned(R, ncols, |_, _| 0.0)
    }
}
impl DVector<f32> {
    pub fn zeros(n: usize) -> Self {
        owned(n, 1, |_, _| 0.0)
    }
    pub fn from_row_slice(s: &[f32]) -> Self {
        owned(s.len(), 1, |i, _| s[i])
    }
    pub fn resize_vertically_mut(&mut self, n: usize, val: f32) {
        self.data.data.resize(n, val);
        self.data.nrows = n;
    }
    pub fn insert_rows(self, i: usize, n: usize, val: f32) -> Self {
        let mut v = self.data.data;
        assert!(i <= v.len(), "Row insertion index out of range.");
        v.splice(i..i, core::iter::repeat_n(val, n));
        Self::from_row_slice(&v)
    }
}
impl DMatrix<f32> {
    pub fn zeros(r: usize, c: usize) -> Self {
        owned(r, c, |_, _| 0.0)
    }
    pub fn from_row_slice(r: usize, c: usize, s: &[f32]) -> Self {
        assert_eq!(s.len(), r * c);
        owned(r, c, |i, j| s[i * c + j])
    }
}
impl<'a> DVectorView<'a, f32> {
    pub fn from_slice(s: &'a [f32], n: usize) -> Self {
        assert!(n <= s.len(), "Matrix slicing out of bounds.");
        matrix_of(ViewStorage {
            ptr: s.as_ptr(),
            shape: (n, 1),
            strides: (1, n),
            _p: P,
        })
    }
}
impl<R: Dim, C: Dim> Matrix<f32, R, C, VecStorage<f32, R, C>> {
    pub fn as_slice(&self) -> &[f32] {
        &self.data.data
    }
}

// Indexing.
impl<R: Dim, C: Dim, S: Storage<f32, R, C>> Index<(usize, usize)> for Matrix<f32, R, C, S> {
    type Output = f32;
    fn index(&self, (i, j): (usize, usize)) -> &f32 {
        let (r, c) = self.data.shape();
        assert!(i < r && j < c, "Matrix index out of bounds.");
        let st = self.data.strides();
        unsafe { &*self.data.ptr().add(i * st.0 + j * st.1) }
    }
}
impl<R: Dim, C: Dim, S: StorageMut<f32, R, C>> IndexMut<(usize, usize)> for Matrix<f32, R, C, S> {
    fn index_mut(&mut self, (i, j): (usize, usize)) -> &mut f32 {
        let (r, c) = self.data.shape();
        assert!(i < r && j < c, "Matrix index out of bounds.");
        let st = self.data.strides();
        unsafe { &mut *self.data.ptr_mut().add(i * st.0 + j * st.1) }
    }
}
/// A linear index, column-major.
impl<R: Dim, C: Dim, S: Storage<f32, R, C>> Index<usize> for Matrix<f32, R, C, S> {
    type Output = f32;
    fn index(&self, k: usize) -> &f32 {
        let r = self.data.shape().0.max(1);
        &self[(k % r, k / r)]
    }
}
impl<R: Dim, C: Dim, S: StorageMut<f32, R, C>> IndexMut<usize> for Matrix<f32, R, C, S> {
    fn index_mut(&mut self, k: usize) -> &mut f32 {
        let r = self.data.shape().0.max(1);
        &mut self[(k % r, k / r)]
    }
}

/// That a part of `size` at `at` lies within `shape`.
pub(crate) fn check(shape: (usize, usize), at: (usize, usize), size: (usize, usize)) {
    assert!(
        at.0 + size.0 <= shape.0 && at.1 + size.1 <= shape.1,
        "Matrix slicing out of bounds."
    );
}
