//! Measuring: two ways of doing the same in turn, and the least processor time of each.

use std::time::{Duration, Instant};

use crate::processor;

/// How long one measurement lasts, at least.
const LEAST: Duration = Duration::from_millis(4);

/// How often each way is measured, and after how long it is enough even with fewer rounds.
const ROUNDS: usize = 15;
const LONGEST: Duration = Duration::from_secs(2);

/// The time of so many calls.
fn timed(work: &mut dyn FnMut(), calls: u32) -> Duration {
    let begun = processor::time();
    for _ in 0..calls {
        work();
    }
    processor::time() - begun
}

/// How many calls make a measurement long enough.
fn enough(work: &mut dyn FnMut()) -> u32 {
    let mut calls = 1;
    while timed(work, calls) < LEAST && calls < 1 << 20 {
        calls *= 2;
    }
    calls
}

/// The least time of one call of each, in nanoseconds; they are measured in turn, so that what disturbs one disturbs the other.
pub fn both(one: &mut dyn FnMut(), other: &mut dyn FnMut()) -> (f64, f64) {
    let calls = (enough(one), enough(other));
    let mut least = (f64::MAX, f64::MAX);
    let begun = Instant::now();
    for round in 0..ROUNDS {
        if round > 2 && begun.elapsed() > LONGEST {
            break;
        }
        let each = |time: Duration, calls: u32| time.as_nanos() as f64 / f64::from(calls);
        least.0 = least.0.min(each(timed(one, calls.0), calls.0));
        least.1 = least.1.min(each(timed(other, calls.1), calls.1));
    }
    least
}
