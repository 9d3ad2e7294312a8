//! The stored replay script: the worked loads, cases picked by hand for each rule of
//! the scope paper, sections Reception and Commands, the documents' own examples,
//! random histories, and an end in the middle of an open load and of a packet. It is
//! the same in every run.

mod commands;
mod documents;
mod end;
mod events;
mod limits;
mod line;
mod loads;
mod worked;

use super::Calls;
use crate::material::command::{tli, tlr};
use crate::material::history::{random_history, script_of, Cut};
use crate::material::table::{full_blocks, record_of};
use crate::material::traffic::Loads;
use crate::random::Random;
use crate::table::version::Version;
use crate::vectors::Vectors;

const A: Version = *b"TABVER0008";
const B: Version = *b" ~ ~ ~ ~ ~";

/// A good record of network 7, and the block of it alone.
const RECORD: &[u8] = b"010107AZab";
const BLOCK: &[u8] = b"01010107AZab";

/// How many random histories there are, and the most bytes of each. The seed makes
/// them the same each time.
const HISTORIES: usize = 6;
const LENGTH: usize = 20_000;
const SEED: u64 = 1;

pub fn script(vectors: &Vectors) -> Result<Vec<u8>, String> {
    let mut calls = Calls::default();
    worked::cases(&mut calls, vectors)?;
    line::cases(&mut calls);
    commands::cases(&mut calls);
    loads::cases(&mut calls);
    limits::cases(&mut calls);
    events::cases(&mut calls);
    documents::cases(&mut calls, vectors)?;
    at_random(&mut calls);
    end::case(&mut calls, vectors)?;
    Ok(calls.script)
}

fn at_random(calls: &mut Calls) {
    let mut random = Random::new(SEED);
    for _ in 0..HISTORIES {
        let history = random_history(&mut random, LENGTH, Loads::Short);
        let script = script_of(&mut random, &history, Cut::Random);
        calls.script.extend(script);
    }
}

impl Calls {
    /// Opens a load and adds these records to it, each block as full as it can be.
    fn open_load(&mut self, network: u8, version: &Version, records: &[Vec<u8>]) {
        self.send(&tli(network, version));
        for block in full_blocks(records) {
            self.send(&tlr(&block));
        }
    }

    fn load(&mut self, network: u8, version: &Version, records: &[Vec<u8>]) {
        self.open_load(network, version, records);
        self.send(b"TLE");
    }

    /// A load for all networks that brings nothing: no record is live after it,
    /// and every version is ten "0" bytes.
    fn clear(&mut self) {
        self.load(0, &A, &[]);
    }
}

/// That many records of one network and length, told apart by their numbers.
fn records(network: u8, count: usize, length: usize) -> Vec<Vec<u8>> {
    let numbers = 0..count;
    numbers
        .map(|number| record_of(b'1', network, number, length))
        .collect()
}

#[cfg(test)]
mod tests {
    use super::{script, Calls};
    use crate::hex;
    use crate::replay::run;
    use crate::vectors::Vectors;
    use std::path::Path;

    /// Names and codes of the responses to these calls on a fresh device, those
    /// that are sent again left out.
    pub fn responses(cases: impl Fn(&mut Calls)) -> Vec<String> {
        let mut calls = Calls::default();
        cases(&mut calls);
        let log = String::from_utf8(run(&calls.script)).expect("the log is text");
        let replies = log.lines().filter(|line| line.starts_with("B "));
        let replies = replies.filter_map(|line| line.rsplit(' ').next());
        let responses = replies.filter_map(|reply| reply.strip_prefix("0616"));
        responses
            .map(|digits| hex::read(&digits.as_bytes()[..12]).expect("six bytes"))
            .map(|code| String::from_utf8(code).expect("a name and a code"))
            .collect()
    }

    pub fn documents() -> Vectors {
        let folder = concat!(env!("CARGO_MANIFEST_DIR"), "/../vectors");
        Vectors::read(Path::new(folder)).expect("the vectors can be read")
    }

    #[test]
    fn it_is_the_same_each_time() {
        let vectors = documents();
        assert!(script(&vectors).is_ok());
        assert!(script(&vectors) == script(&vectors));
    }
}
