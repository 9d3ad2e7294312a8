//! The seed of a run. It is new each time, so that runs add up, and can be set,
//! so that a failed one can be had again.

use std::io::Write;
use std::time::{SystemTime, UNIX_EPOCH};

const VARIABLE: &str = "COMPARE_SEED";

/// The seed set in the environment, else one from the clock; told on standard
/// error past the test harness, which keeps back what a passing test prints.
pub fn told(name: &str) -> u64 {
    let seed = match std::env::var(VARIABLE) {
        Ok(text) => text
            .parse()
            .unwrap_or_else(|why| panic!("{VARIABLE}={text}: {why}")),
        Err(_) => from_clock(),
    };
    let line = format!("{name}: {VARIABLE}={seed}\n");
    std::io::stderr()
        .write_all(line.as_bytes())
        .expect("standard error can be written");
    seed
}

fn from_clock() -> u64 {
    SystemTime::now()
        .duration_since(UNIX_EPOCH)
        .map_or(0, |since| since.as_nanos() as u64)
}
