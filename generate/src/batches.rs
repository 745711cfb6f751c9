//! Numbered scripts, some at a time, by several threads.

use std::io;
use std::ops::Range;
use std::sync::atomic::{AtomicU64, Ordering};

/// Has `work` done for each batch of `size` numbers, and stops at the first error.
///
/// # Errors
/// What `work` gives.
///
/// # Panics
/// Where `work` does.
pub fn in_batches(
    numbers: &Range<u64>,
    size: u64,
    jobs: usize,
    work: impl Fn(Range<u64>) -> io::Result<()> + Sync,
) -> io::Result<()> {
    let next = AtomicU64::new(numbers.start);
    let run = || {
        loop {
            let first = next.fetch_add(size, Ordering::Relaxed);
            if first >= numbers.end {
                return Ok(());
            }
            let done = work(first..numbers.end.min(first + size));
            if done.is_err() {
                next.store(numbers.end, Ordering::Relaxed);
                return done;
            }
        }
    };
    std::thread::scope(|scope| {
        let threads: Vec<_> = (0..jobs.max(1)).map(|_| scope.spawn(run)).collect();
        threads
            .into_iter()
            .try_for_each(|thread| thread.join().expect("no panic"))
    })
}

#[cfg(test)]
mod tests {
    use super::*;
    use std::sync::Mutex;

    #[test]
    fn every_number_comes_once() {
        let seen = Mutex::new(vec![]);
        in_batches(&(5..99), 10, 3, |batch| {
            seen.lock().unwrap().extend(batch);
            Ok(())
        })
        .unwrap();
        let mut seen = seen.into_inner().unwrap();
        seen.sort_unstable();
        assert!(seen.into_iter().eq(5..99));
    }

    #[test]
    fn an_error_is_told() {
        let failed = in_batches(&(0..100), 10, 2, |batch| match batch.start {
            30 => Err(io::Error::other("thirty")),
            _ => Ok(()),
        });
        assert_eq!(failed.unwrap_err().to_string(), "thirty");
    }
}
