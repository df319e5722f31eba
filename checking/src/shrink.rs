//! Cutting a failing list down to a small one that still fails.

use std::time::{Duration, Instant};

use crate::compare::Failure;

/// Cutting down stops after so long: a check that takes its time, or never ends, would be tried again and again.
const LONGEST_CUTTING: Duration = Duration::from_secs(60);

/// Drops items, many at a time and then one by one, while what is left still fails. Gives the smallest list found and its failure.
pub fn smallest<T: Clone>(
    items: &[T],
    failure: Failure,
    mut fails: impl FnMut(&[T]) -> Option<Failure>,
) -> (Vec<T>, Failure) {
    let end = Instant::now() + LONGEST_CUTTING;
    let mut kept = items.to_vec();
    let mut failure = failure;
    let mut dropped_at_once = kept.len();
    while dropped_at_once > 0 && Instant::now() < end {
        let before = kept.len();
        let mut start = 0;
        while start < kept.len() && Instant::now() < end {
            let next = kept.len().min(start + dropped_at_once);
            let shorter = [&kept[..start], &kept[next..]].concat();
            match fails(&shorter) {
                Some(still) => {
                    kept = shorter;
                    failure = still;
                }
                None => start = next,
            }
        }
        // Single items are tried again until none can go.
        if dropped_at_once > 1 || kept.len() == before {
            dropped_at_once /= 2;
        }
    }
    (kept, failure)
}
