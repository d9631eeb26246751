//! Rounds in turn, and the least time of each side.
use std::{
    hint::black_box,
    time::{Duration, Instant},
};

/// One round of a side: what is not to be timed is done outside the span that it answers.
pub type Side<'a> = Box<dyn FnMut() -> Duration + 'a>;

/// The time of one call, without that of dropping its answer.
pub fn span<T>(call: impl FnOnce() -> T) -> Duration {
    let start = Instant::now();
    let answer = black_box(call());
    let span = start.elapsed();
    drop(answer);
    span
}

/// Runs the sides in turn, at least 15 rounds of each and until the time is used up; the least span of each, in nanoseconds.
pub fn race<const N: usize>(budget: Duration, mut sides: [Side; N]) -> [f64; N] {
    let mut least = [Duration::MAX; N];
    let start = Instant::now();
    let mut rounds = 0;
    while rounds < 15 || start.elapsed() < budget {
        for (side, least) in sides.iter_mut().zip(&mut least) {
            *least = side().min(*least);
        }
        rounds += 1;
    }
    least.map(|span| span.as_nanos() as f64)
}

/// What taking the time takes, in nanoseconds.
pub fn idle() -> f64 {
    (0..1000).map(|_| span(|| ())).min().unwrap_or_default().as_nanos() as f64
}
