//! Times of calls: the median or the least of many repetitions, all calls of a race
//! taken in turn, so that what slows the machine for a while slows all of them.

use std::time::Instant;

/// How often each call is timed. Odd, so that one repetition is the median.
pub const REPETITIONS: usize = 501;

/// Calls are made in batches that take about so many nanoseconds, so that
/// reading the clock weighs little.
const BATCH_NANOSECONDS: f64 = 100_000.0;

/// The median of each call, in nanoseconds a call.
pub fn medians<const COUNT: usize>(calls: [&mut dyn FnMut(); COUNT]) -> [f64; COUNT] {
    sorted(calls).map(|times| times[times.len() / 2])
}

/// The least of each call, which is what a machine with nothing else to do takes.
#[cfg(test)]
pub fn leasts<const COUNT: usize>(calls: [&mut dyn FnMut(); COUNT]) -> [f64; COUNT] {
    sorted(calls).map(|times| times[0])
}

/// The times of each call, the least first.
fn sorted<const COUNT: usize>(calls: [&mut dyn FnMut(); COUNT]) -> [Vec<f64>; COUNT] {
    let mut racers = calls.map(|call| {
        // The first batch warms up; the second says how long a call takes.
        batch(call, 1);
        let single = batch(call, 3).max(1.0);
        let size = (BATCH_NANOSECONDS / single).ceil() as u32;
        (call, size, Vec::with_capacity(REPETITIONS))
    });
    for _ in 0..REPETITIONS {
        for (call, size, times) in &mut racers {
            times.push(batch(call, *size));
        }
    }
    racers.map(|(_, _, mut times)| {
        times.sort_by(f64::total_cmp);
        times
    })
}

/// So many calls one after another, in nanoseconds a call.
fn batch(call: &mut dyn FnMut(), size: u32) -> f64 {
    let began = Instant::now();
    for _ in 0..size {
        call();
    }
    began.elapsed().as_nanos() as f64 / f64::from(size)
}
