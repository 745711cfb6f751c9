//! The least time of a call over many short rounds.

use std::time::Instant;

const ROUNDS: usize = 200;
const ROUND_NS: f64 = 20_000.0;

fn round(call: &mut dyn FnMut(), calls: usize) -> f64 {
    let begin = Instant::now();
    for _ in 0..calls {
        call();
    }
    begin.elapsed().as_secs_f64() * 1e9 / calls as f64
}

/// ns a call, in rounds by turns.
pub fn least<const N: usize>(mut calls: [&mut dyn FnMut(); N]) -> [f64; N] {
    let count = (ROUND_NS / round(calls[N - 1], 10)).ceil() as usize;
    let mut least = [f64::MAX; N];
    for _ in 0..ROUNDS {
        for (call, least) in calls.iter_mut().zip(&mut least) {
            *least = least.min(round(*call, count));
        }
    }
    least
}
