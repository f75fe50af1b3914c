//! How long a call takes: the median of repeated runs. For the examples that print figures.

use std::hint::black_box;
use std::time::Instant;

/// Median time of 201 runs, in microseconds.
pub fn median<T>(mut run: impl FnMut() -> T) -> f64 {
    let mut times: Vec<f64> = (0..201)
        .map(|_| {
            let start = Instant::now();
            black_box(run());
            start.elapsed().as_secs_f64() * 1e6
        })
        .collect();
    times.sort_by(f64::total_cmp);
    times[times.len() / 2]
}
