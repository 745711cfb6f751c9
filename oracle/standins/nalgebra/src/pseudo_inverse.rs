//! The pseudo-inverse of a symmetric matrix, all that T-11 asks of nalgebra's.
use crate::matrix::SMatrix;

impl<const N: usize> SMatrix<f32, N, N> {
    /// The pseudo-inverse of a symmetric matrix (the only use is J·Jᵀ + d²·I): Jacobi rotations in f64;
    /// eigenvalues of absolute value at most `eps` count as zero.
    pub fn pseudo_inverse(self, eps: f32) -> Result<Self, &'static str> {
        if eps < 0.0 {
            return Err("SVD pseudo inverse: the epsilon must be non-negative.");
        }
        let mut a = [[0.0f64; N]; N];
        let mut v = [[0.0f64; N]; N];
        for i in 0..N {
            v[i][i] = 1.0;
            for j in 0..N {
                a[i][j] = self[(i, j)] as f64;
            }
        }
        for _ in 0..64 {
            for p in 0..N {
                for q in p + 1..N {
                    if a[p][q] == 0.0 {
                        continue;
                    }
                    let th = 0.5 * (2.0 * a[p][q]).atan2(a[p][p] - a[q][q]);
                    let (s, c) = th.sin_cos();
                    for k in 0..N {
                        let (x, y) = (a[k][p], a[k][q]);
                        a[k][p] = c * x + s * y;
                        a[k][q] = c * y - s * x;
                    }
                    for k in 0..N {
                        let (x, y) = (a[p][k], a[q][k]);
                        a[p][k] = c * x + s * y;
                        a[q][k] = c * y - s * x;
                    }
                    for k in 0..N {
                        let (x, y) = (v[k][p], v[k][q]);
                        v[k][p] = c * x + s * y;
                        v[k][q] = c * y - s * x;
                    }
                }
            }
        }
        let mut out = Self::zeros();
        for i in 0..N {
            for j in 0..N {
                let mut s = 0.0;
                for k in 0..N {
                    if a[k][k].abs() > eps as f64 {
                        s += v[i][k] * v[j][k] / a[k][k];
                    }
                }
                out[(i, j)] = s as f32;
            }
        }
        Ok(out)
    }
}
