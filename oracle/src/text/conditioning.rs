//! How far a solution may stray that is worked out in f32.

/// The largest of |A⁻¹|·|A|·|x| that 01's domain allows for |x| at most 1: rows sum up to 20, inverses to 1.
const INSIDE: f64 = 20.0;
/// Larger than that, f32 can't tell a matrix from a singular one.
const MOST: f64 = 1.0e6;
/// A divisor is at least twice the thousandth that it may stray by, so its reciprocal strays by twice as much as by the first order.
const FAR_FROM_ZERO: f64 = 500.0;

/// What a share is taken of, for a solution and for what is multiplied by the inverse.
#[derive(Clone, Copy, Debug, PartialEq)]
pub struct Conditioning {
    /// Of the solution's entries: 1 inside 01's domain.
    pub solution: f64,
    /// The largest row sum of the inverse: at most 1 inside the domain.
    pub inverse: f64,
    /// The solution's own, be it below 1; none inside the domain, where a divisor made of it is far from zero.
    pub least: Option<f64>,
}

impl Conditioning {
    pub const INSIDE: Conditioning = Conditioning {
        solution: 1.0,
        inverse: 1.0,
        least: None,
    };

    /// Of a matrix in rows and a solution; `None` where the matrix is too near to a singular one. `given_inside` says that what the right sides are
    /// made of lies inside the domain.
    pub fn of(matrix: &[f32], solution: &[f32], given_inside: bool) -> Option<Conditioning> {
        let n = solution.len();
        let matrix = matrix.get(..n * n)?;
        if given_inside && is_inside(matrix, n) {
            return Some(Conditioning::INSIDE);
        }
        let inverse = inverse(matrix, n)?;
        let row_sums = |entry: &dyn Fn(usize, usize) -> f64| -> Vec<f64> {
            (0..n)
                .map(|row| (0..n).map(|column| entry(row, column)).sum())
                .collect()
        };
        let largest = |values: &[f64]| values.iter().copied().fold(0.0, f64::max);
        let sizes = row_sums(&|row, column| f64::from(matrix[row * n + column] * solution[column]).abs());
        let strayed = row_sums(&|row, column| inverse[row * n + column].abs() * sizes[column]);
        let inverse = largest(&row_sums(&|row, column| inverse[row * n + column].abs()));
        let condition = inverse * largest(&row_sums(&|row, column| f64::from(matrix[row * n + column]).abs()));
        let least = largest(&strayed) / INSIDE;
        (condition <= MOST).then(|| Conditioning {
            solution: least.max(1.0),
            inverse: inverse.max(1.0),
            least: Some(least),
        })
    }

    /// Of the reciprocal of lhs·(1 + cfm_coeff), lhs being an entry of the solution; `None` where rounding alone may have made it.
    pub fn reciprocal(&self, value: f32, cfm_coeff: f32) -> Option<f64> {
        let Some(least) = self.least else {
            return Some(1.0);
        };
        // The two cancel.
        if cfm_coeff == -1.0 {
            return Some(1.0);
        }
        let (value, stray) = (f64::from(value).abs(), least * (1.0 + f64::from(cfm_coeff).abs()));
        (value > 0.0 && value * stray <= FAR_FROM_ZERO).then(|| (2.0 * value * value * stray).max(1.0))
    }
}

/// Entries at most 10, each on the diagonal at least 1 above the sum of its row's others.
fn is_inside(matrix: &[f32], n: usize) -> bool {
    matrix.chunks(n.max(1)).enumerate().all(|(at, row)| {
        let sum: f64 = row.iter().map(|x| f64::from(x.abs())).sum();
        row.iter().all(|x| x.abs() <= 10.0) && f64::from(row[at]) - (sum - f64::from(row[at].abs())) >= 1.0
    })
}

/// By elimination with the largest pivots, in f64.
fn inverse(matrix: &[f32], n: usize) -> Option<Vec<f64>> {
    let mut left: Vec<f64> = matrix.iter().map(|&x| x.into()).collect();
    let mut right = vec![0.0; n * n];
    (0..n).for_each(|at| right[at * n + at] = 1.0);
    for column in 0..n {
        let size = |row: &usize| left[row * n + column].abs();
        let pivot = (column..n).max_by(|a, b| size(a).total_cmp(&size(b)))?;
        for at in 0..n {
            left.swap(column * n + at, pivot * n + at);
            right.swap(column * n + at, pivot * n + at);
        }
        let pivot = left[column * n + column];
        if pivot == 0.0 || !pivot.is_finite() {
            return None;
        }
        for at in 0..n {
            left[column * n + at] /= pivot;
            right[column * n + at] /= pivot;
        }
        for row in (0..n).filter(|&row| row != column) {
            let factor = left[row * n + column];
            for at in 0..n {
                left[row * n + at] -= factor * left[column * n + at];
                right[row * n + at] -= factor * right[column * n + at];
            }
        }
    }
    right.iter().all(|x| x.is_finite()).then_some(right)
}
