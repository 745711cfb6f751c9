//! Where the entries stand: arrays, vectors, views.
use crate::dim::{Const, Dim, Dyn, U1};
use core::marker::PhantomData as P;

/// # Safety
/// `ptr() + i * strides().0 + j * strides().1` must be valid for all (i, j) within `shape()`.
pub unsafe trait Storage<T, R: Dim, C: Dim> {
    type RStride: Dim;
    type CStride: Dim;
    fn shape(&self) -> (usize, usize);
    fn strides(&self) -> (usize, usize);
    fn ptr(&self) -> *const T;
}
/// # Safety
/// As `Storage`, for writes.
pub unsafe trait StorageMut<T, R: Dim, C: Dim>: Storage<T, R, C> {
    fn ptr_mut(&mut self) -> *mut T;
}

#[repr(transparent)]
#[derive(Copy, Clone, Debug, PartialEq)]
pub struct ArrayStorage<T, const R: usize, const C: usize>(pub [[T; R]; C]);
#[derive(Clone, Debug, PartialEq)]
pub struct VecStorage<T, R, C> {
    pub(crate) data: Vec<T>,
    pub(crate) nrows: usize,
    ncols: usize,
    pub(crate) _p: P<(R, C)>,
}
pub struct ViewStorage<'a, T, R, C, RS, CS> {
    pub(crate) ptr: *const T,
    pub(crate) shape: (usize, usize),
    pub(crate) strides: (usize, usize),
    pub(crate) _p: P<(&'a T, R, C, RS, CS)>,
}
impl<T, R, C, RS, CS> Clone for ViewStorage<'_, T, R, C, RS, CS> {
    fn clone(&self) -> Self {
        *self
    }
}
impl<T, R, C, RS, CS> Copy for ViewStorage<'_, T, R, C, RS, CS> {}
pub struct ViewStorageMut<'a, T, R, C, RS, CS> {
    pub(crate) ptr: *mut T,
    pub(crate) shape: (usize, usize),
    pub(crate) strides: (usize, usize),
    pub(crate) _p: P<(&'a mut T, R, C, RS, CS)>,
}

unsafe impl<T, const R: usize, const C: usize> Storage<T, Const<R>, Const<C>> for ArrayStorage<T, R, C> {
    type RStride = U1;
    type CStride = Const<R>;
    fn shape(&self) -> (usize, usize) {
        (R, C)
    }
    fn strides(&self) -> (usize, usize) {
        (1, R)
    }
    fn ptr(&self) -> *const T {
        self.0.as_ptr() as *const T
    }
}
unsafe impl<T, const R: usize, const C: usize> StorageMut<T, Const<R>, Const<C>> for ArrayStorage<T, R, C> {
    fn ptr_mut(&mut self) -> *mut T {
        self.0.as_mut_ptr() as *mut T
    }
}
unsafe impl<T, R: Dim, C: Dim> Storage<T, R, C> for VecStorage<T, R, C> {
    type RStride = U1;
    type CStride = R;
    fn shape(&self) -> (usize, usize) {
        (self.nrows, self.ncols)
    }
    fn strides(&self) -> (usize, usize) {
        (1, self.nrows)
    }
    fn ptr(&self) -> *const T {
        self.data.as_ptr()
    }
}
unsafe impl<T, R: Dim, C: Dim> StorageMut<T, R, C> for VecStorage<T, R, C> {
    fn ptr_mut(&mut self) -> *mut T {
        self.data.as_mut_ptr()
    }
}
unsafe impl<T, R: Dim, C: Dim, RS: Dim, CS: Dim> Storage<T, R, C> for ViewStorage<'_, T, R, C, RS, CS> {
    type RStride = RS;
    type CStride = CS;
    fn shape(&self) -> (usize, usize) {
        self.shape
    }
    fn strides(&self) -> (usize, usize) {
        self.strides
    }
    fn ptr(&self) -> *const T {
        self.ptr
    }
}
unsafe impl<T, R: Dim, C: Dim, RS: Dim, CS: Dim> Storage<T, R, C> for ViewStorageMut<'_, T, R, C, RS, CS> {
    type RStride = RS;
    type CStride = CS;
    fn shape(&self) -> (usize, usize) {
        self.shape
    }
    fn strides(&self) -> (usize, usize) {
        self.strides
    }
    fn ptr(&self) -> *const T {
        self.ptr
    }
}
unsafe impl<T, R: Dim, C: Dim, RS: Dim, CS: Dim> StorageMut<T, R, C> for ViewStorageMut<'_, T, R, C, RS, CS> {
    fn ptr_mut(&mut self) -> *mut T {
        self.ptr
    }
}

/// The owned storage for a pair of dimensions (`Self` the rows).
pub trait Alloc<T, C: Dim>: Dim {
    type Buf: StorageMut<T, Self, C>;
    fn alloc(nrows: usize, ncols: usize) -> Self::Buf;
}
impl<const R: usize, const C: usize> Alloc<f32, Const<C>> for Const<R> {
    type Buf = ArrayStorage<f32, R, C>;
    fn alloc(r: usize, c: usize) -> Self::Buf {
        assert_eq!((r, c), (R, C));
        ArrayStorage([[0.0; R]; C])
    }
}
macro_rules! vec_alloc { (<$($g:ident)*>, $R:ty, $C:ty) => {
    impl<$(const $g: usize)*> Alloc<f32, $C> for $R {
        type Buf = VecStorage<f32, $R, $C>;
        fn alloc(r: usize, c: usize) -> Self::Buf { <$R>::of(r); <$C>::of(c); VecStorage { data: vec![0.0; r * c], nrows: r, ncols: c, _p: P } }
    }
} }
vec_alloc!(<>, Dyn, Dyn);
vec_alloc!(<C>, Dyn, Const<C>);
vec_alloc!(<R>, Const<R>, Dyn);
