//! The intervals between rounds that are timed.

use engine::{number, Engine};
use random::Random;
use std::hint::black_box;
use std::time::{Duration, Instant};

/// Window, precision and drift.
type Asked = (u32, u32, u32);

/// Some that differ in all three: windows wider than the precision by enough, or by less than the drift eats.
pub fn inputs(granted: bool) -> Vec<Asked> {
    let random = Random::new(6);
    let input = |_| {
        let drift = random.between(500, 1000) as u32;
        let precision = random.between(100_000, 900_000) as u32;
        let left = if granted { random.between(1000, 90_000) } else { random.between(1, 40) };
        (precision + left as u32, precision, drift)
    };
    (0..64).map(input).collect()
}

/// All engines give the same answers, and grant an interval or refuse it under 18.
pub fn agree(engines: &[Box<dyn Engine>], inputs: &[Asked], granted: bool) -> bool {
    inputs.iter().all(|&(window, precision, drift)| {
        let first = engines[0].interval(window, precision, drift);
        let same = engines[1..].iter().all(|e| e.interval(window, precision, drift) == first);
        same && number(first.answer) == if granted { 0 } else { 18 }
    })
}

/// Asks for each, so many times over.
pub fn time(engine: &dyn Engine, inputs: &[Asked], times: u32) -> Duration {
    let start = Instant::now();
    for _ in 0..times {
        for &(window, precision, drift) in inputs {
            let given = engine.interval(black_box(window), black_box(precision), black_box(drift));
            black_box(given);
        }
    }
    start.elapsed()
}
