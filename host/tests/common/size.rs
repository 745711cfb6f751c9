//! How many random calls the tests make.

/// A million, or as many as `GIELLAVOR_CALLS` says.
pub const CALLS: usize = 1_000_000;

pub fn calls() -> usize {
    let asked = std::env::var("GIELLAVOR_CALLS").ok();
    asked.and_then(|calls| calls.parse().ok()).unwrap_or(CALLS)
}
