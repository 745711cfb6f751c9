//! Numbers of rows and columns, and ranges of them.
use core::fmt;
use core::ops::{Range, RangeFrom};

pub trait Dim: Copy + fmt::Debug + 'static {
    fn of(n: usize) -> Self;
}
#[derive(Copy, Clone, Debug, PartialEq, Eq)]
pub struct Dyn(pub usize);
#[derive(Copy, Clone, Debug, PartialEq, Eq, Default)]
pub struct Const<const N: usize>;
pub type U1 = Const<1>;
pub type U2 = Const<2>;
pub type U3 = Const<3>;
impl Dim for Dyn {
    fn of(n: usize) -> Self {
        Dyn(n)
    }
}
impl<const N: usize> Dim for Const<N> {
    fn of(n: usize) -> Self {
        assert_eq!(n, N, "Mismatched dimension.");
        Const
    }
}

/// An index or a range of rows or columns.
pub trait DimRange {
    type Size: Dim;
    /// (begin, size), given the size of the dimension.
    fn bounds(self, n: usize) -> (usize, usize);
}
impl DimRange for usize {
    type Size = U1;
    fn bounds(self, _: usize) -> (usize, usize) {
        (self, 1)
    }
}
impl DimRange for Range<usize> {
    type Size = Dyn;
    fn bounds(self, _: usize) -> (usize, usize) {
        (self.start, self.end - self.start)
    }
}
impl DimRange for RangeFrom<usize> {
    type Size = Dyn;
    fn bounds(self, n: usize) -> (usize, usize) {
        (self.start, n - self.start)
    }
}
