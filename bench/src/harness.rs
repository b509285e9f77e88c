//! Times two sides of a measure side by side.

use std::hint::black_box;
use std::time::{Duration, Instant};

/// How long a batch lasts. It is shorter than a turn of the scheduler, so that on a busy machine
/// many batches run without a break.
const BATCH: Duration = Duration::from_millis(2);

/// How many batches each side has; the best one counts.
const BATCHES: usize = 100;

/// One measure: the time of one operation on each side.
pub struct Row {
    pub name: &'static str,
    pub ours_ns: f64,
    pub baseline_ns: f64,
}

impl Row {
    pub fn ratio(&self) -> f64 {
        self.ours_ns / self.baseline_ns
    }
}

/// Times one operation of each side. The batches of both alternate, so that both see the same
/// machine. Each operation must work on what the one before it left.
pub fn side_by_side(name: &'static str, mut ours: impl FnMut(), mut baseline: impl FnMut()) -> Row {
    let ours_count = operations_in_a_batch(&mut ours);
    let baseline_count = operations_in_a_batch(&mut baseline);
    let mut ours_ns = f64::INFINITY;
    let mut baseline_ns = f64::INFINITY;
    for _ in 0..BATCHES {
        ours_ns = ours_ns.min(nanoseconds(ours_count, &mut ours));
        baseline_ns = baseline_ns.min(nanoseconds(baseline_count, &mut baseline));
    }
    Row {
        name,
        ours_ns,
        baseline_ns,
    }
}

/// How many operations fill a batch: twice as many until they do. This also warms the caches.
fn operations_in_a_batch(operation: &mut impl FnMut()) -> u32 {
    let mut count = 1;
    while time(count, operation) < BATCH {
        count *= 2;
    }
    count
}

fn nanoseconds(count: u32, operation: &mut impl FnMut()) -> f64 {
    time(count, operation).as_secs_f64() * 1e9 / f64::from(count)
}

fn time(count: u32, operation: &mut impl FnMut()) -> Duration {
    let start = Instant::now();
    for _ in 0..black_box(count) {
        operation();
    }
    start.elapsed()
}
