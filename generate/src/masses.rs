//! Matrices by chance, in rows.

use crate::floats;
use crate::hand::Hand;
use crate::rng::Rng;

/// Each diagonal entry at least 1 above the sum of its row's other absolute values, none above 10.
pub fn dominant(rng: &mut Rng, n: usize) -> Vec<f32> {
    let most = 8.5 / n as f32;
    let mut entries = vec![0.0; n * n];
    for row in 0..n {
        let mut sum = 0.0;
        for column in (0..n).filter(|&column| column != row) {
            let entry = floats::within(rng, most);
            entries[row * n + column] = entry;
            sum += entry.abs();
        }
        entries[row * n + row] = sum + 1.01 + floats::up_to(rng, 0.4);
    }
    entries
}

/// Entries of at most `most` either way.
pub fn loose(rng: &mut Rng, n: usize, most: f32) -> Vec<f32> {
    (0..n * n).map(|_| floats::within(rng, most)).collect()
}

/// The kinds of `any`, by weight.
const KINDS: [usize; 10] = [30, 12, 12, 10, 8, 6, 6, 4, 5, 4];

/// A matrix of any kind: regular, singular, or one that overflows on the way.
pub fn any(hand: &mut Hand, n: usize) -> Vec<f32> {
    let kind = hand.rng.weighted(&KINDS);
    let fault = (hand.faulty() && n > 0).then(|| hand.rng.below(n * n));
    let [chosen, twin] = [0; 2].map(|_| hand.rng.below(n.max(1)));
    let twins = kind == 3 && hand.rng.chance(500);
    let mut entries: Vec<f32> = Vec::with_capacity(n * n);
    for row in 0..n {
        for column in 0..n {
            let entry = match kind {
                // Two rows alike.
                3 if twins && row > twin && row == n - 1 => entries[twin * n + column],
                // A column of zeros.
                3 | 8 if !twins && column == chosen => hand.rng.pick(&[0.0, -0.0]),
                // An exchange of all rows.
                7 if (row + chosen + 1) % n == column => 2.0,
                _ => entry(hand, kind, n, row.abs_diff(column)),
            };
            entries.push(entry);
        }
    }
    if let Some(at) = fault {
        entries[at] = floats::odd(&mut hand.rng);
    }
    entries
}

/// An entry so far from the diagonal.
fn entry(hand: &mut Hand, kind: usize, n: usize, off: usize) -> f32 {
    let rng = &mut hand.rng;
    let tenths = |rng: &mut Rng| rng.below(10) as f32 / 10.0;
    match (kind, off) {
        // Far from singular, by decimals.
        (0, 0) => (n + 1 + rng.below(5)) as f32 + tenths(rng),
        (0, _) => tenths(rng) * rng.sign(),
        // A diagonal.
        (1, 0) => hand.positive(),
        // Any small entries: rows are exchanged.
        (2, _) => hand.float(),
        // Small whole numbers.
        (3, _) => rng.pick(&[1.0, 2.0, -1.0, 3.0, 0.5]),
        // Signs and zeros, with many pivots alike.
        (4, _) => rng.pick(&[1.0, -1.0, 0.0, -0.0, 0.0, 2.0]),
        // Overflow on the way.
        (5, _) => rng.pick(&[f32::MAX, f32::MIN, 1.7014118e38, -1.7014118e38, 1.0, 0.0]),
        // Denormal pivots.
        (6, 0) => floats::tiny(rng),
        (6, _) => rng.pick(&[0.0, -0.0, f32::from_bits(1)]),
        // Overflow in one column, no pivot in another.
        (8, _) => rng.pick(&[f32::MAX, f32::MIN, 1.0, 1.0, -1.0, 0.0]),
        // A chain of masses.
        (9, 0) => 4.0,
        (9, 1) => -1.0,
        _ => 0.0,
    }
}
