//! How long the proved code takes, held against the second program: one table on
//! standard output, and a plot of it at the place that is named. It judges
//! nothing.
//!
//! Both sources take the check bit by bit. A compiler that knows the loop may make
//! a table of it on either side; that is part of what is measured.

#![deny(warnings)]
mod checks;
mod codecs;
mod device;
mod line;
mod plot;
mod report;
mod stores;
mod tables;

use report::Group;
use std::process::ExitCode;

/// What is measured, in the order of the table.
const MEASURED: [fn() -> Vec<Group>; 4] =
    [codecs::groups, tables::groups, device::groups, line::groups];

fn main() -> ExitCode {
    match std::env::args().nth(1).as_deref() {
        Some(line::SECOND) => line::be_second(),
        Some(place) => measure(place),
        None => {
            eprintln!("speed PLACE: where does the plot go?");
            return ExitCode::FAILURE;
        }
    }
    ExitCode::SUCCESS
}

/// Prints each group when it is there: a run takes a while.
fn measure(place: &str) {
    let mut groups = Vec::new();
    println!("{}", report::HEAD);
    for measure_some in MEASURED {
        for group in measure_some() {
            print!("\n{group}");
            groups.push(group);
        }
    }
    let written = std::fs::write(place, plot::of(&groups));
    written.unwrap_or_else(|why| panic!("{place}: {why}"));
}
