//! LU by rows, as far as its order could be read off nalgebra's documentation.
use crate::dim::{Dim, Dyn};
use crate::matrix::{DMatrix, Matrix};
use crate::storage::StorageMut;
use core::marker::PhantomData as P;

/// Partial (row) pivoting, first greatest absolute value; an all-zero column is passed over.
#[derive(Clone, Debug)]
pub struct LU<T, R, C> {
    lu: DMatrix<f32>,
    swaps: Vec<(usize, usize)>,
    _p: P<(T, R, C)>,
}
impl LU<f32, Dyn, Dyn> {
    pub fn new(mut m: DMatrix<f32>) -> Self {
        let (r, c) = m.shape();
        let mut swaps = vec![];
        for i in 0..r.min(c) {
            let mut piv = i;
            for k in i + 1..r {
                if m[(k, i)].abs() > m[(piv, i)].abs() {
                    piv = k;
                }
            }
            if m[(piv, i)] == 0.0 {
                continue;
            }
            if piv != i {
                swaps.push((i, piv));
                for j in 0..c {
                    let t = m[(i, j)];
                    m[(i, j)] = m[(piv, j)];
                    m[(piv, j)] = t;
                }
            }
            let inv_diag = 1.0 / m[(i, i)];
            for k in i + 1..r {
                m[(k, i)] *= inv_diag;
            }
            for j in i + 1..c {
                let p = m[(i, j)];
                for k in i + 1..r {
                    m[(k, j)] += -p * m[(k, i)];
                }
            }
        }
        LU { lu: m, swaps, _p: P }
    }
    pub fn solve_mut<R2: Dim, C2: Dim, S2: StorageMut<f32, R2, C2>>(&self, b: &mut Matrix<f32, R2, C2, S2>) -> bool {
        let n = self.lu.nrows();
        assert_eq!(n, b.nrows(), "LU solve matrix dimension mismatch.");
        assert_eq!(n, self.lu.ncols(), "LU solve: unable to solve a non-square system.");
        for j in 0..b.ncols() {
            for &(p, q) in &self.swaps {
                let t = b[(p, j)];
                b[(p, j)] = b[(q, j)];
                b[(q, j)] = t;
            }
            for i in 0..n {
                let x = b[(i, j)];
                for k in i + 1..n {
                    b[(k, j)] += -x * self.lu[(k, i)];
                }
            }
            for i in (0..n).rev() {
                let d = self.lu[(i, i)];
                if d == 0.0 {
                    return false;
                }
                let x = b[(i, j)] / d;
                b[(i, j)] = x;
                for k in 0..i {
                    b[(k, j)] += -x * self.lu[(k, i)];
                }
            }
        }
        true
    }
}
