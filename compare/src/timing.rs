//! Rounds of all sides in turn, and what a call takes in one of them.

use std::hint::black_box;
use std::time::{Duration, Instant};

/// The median of each side, of which a round gives one time. The sides take
/// turns: a slow spell of the machine falls on all of them.
pub fn medians<const SIDES: usize>(
    rounds: usize,
    mut round: impl FnMut(usize) -> f64,
) -> [f64; SIDES] {
    let mut times = [const { Vec::new() }; SIDES];
    for _ in 0..rounds {
        for (side, times) in times.iter_mut().enumerate() {
            times.push(round(side));
        }
    }
    times.map(|mut times| {
        times.sort_by(f64::total_cmp);
        times[rounds / 2]
    })
}

/// The average ns of so many calls in a row.
pub fn average(calls: u32, mut call: impl FnMut()) -> f64 {
    let begin = Instant::now();
    for _ in 0..calls {
        call();
    }
    nanoseconds(begin.elapsed(), calls)
}

/// The average ns of so many calls that change what they are made on. That is put
/// back before each, which is not timed.
pub fn average_from<S: Clone>(calls: u32, start: &S, mut call: impl FnMut(&mut S)) -> f64 {
    let mut state = start.clone();
    let mut time = Duration::ZERO;
    for _ in 0..calls {
        state.clone_from(start);
        let begin = Instant::now();
        call(black_box(&mut state));
        time += begin.elapsed();
    }
    nanoseconds(time, calls)
}

fn nanoseconds(time: Duration, calls: u32) -> f64 {
    time.as_nanos() as f64 / f64::from(calls)
}
