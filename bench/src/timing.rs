//! The best of several runs, interleaved, so that a slow moment of the machine
//! meets all programs alike.

use std::time::{Duration, Instant};

const LEAST_RUNS: usize = 3;
const MOST_RUNS: usize = 30;
/// No further run is begun after this time.
const LONG_ENOUGH: Duration = Duration::from_millis(400);

/// The shortest time of each program, in seconds.
pub fn best_of<const N: usize>(mut programs: [&mut dyn FnMut(); N]) -> [f64; N] {
    let mut best = [f64::INFINITY; N];
    let start = Instant::now();
    for run in 0..MOST_RUNS {
        if run >= LEAST_RUNS && start.elapsed() > LONG_ENOUGH {
            break;
        }
        for (program, best) in programs.iter_mut().zip(&mut best) {
            let before = Instant::now();
            program();
            *best = best.min(before.elapsed().as_secs_f64());
        }
    }
    best
}
