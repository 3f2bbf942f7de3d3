//! The times of two sides that take turns, so that both see the same machine.

use std::time::{Duration, Instant};

const A_ROW: Duration = Duration::from_secs(1);

/// The best time of a batch of each side, in nanoseconds, and whether the two checksums were the same at every turn.
pub fn by_turns(
    mut proved: impl FnMut() -> u32,
    mut plain: impl FnMut() -> u32,
) -> ([f64; 2], bool) {
    let mut best = [Duration::MAX; 2];
    let mut alike = true;
    let until = Instant::now() + A_ROW;
    while Instant::now() < until {
        alike &= timed(&mut best[0], &mut proved) == timed(&mut best[1], &mut plain);
    }
    (best.map(|time| time.as_nanos() as f64), alike)
}

fn timed(best: &mut Duration, batch: &mut impl FnMut() -> u32) -> u32 {
    let from = Instant::now();
    let sum = batch();
    *best = (*best).min(from.elapsed());
    sum
}
