//! The worked loads, each from a fresh device and in three cuts: the replies, the
//! live records and the version are those written in the vectors file.

use super::assert_alike;
use compare::seed;
use second::hex;
use second::material::history::{script_of, Cut};
use second::random::Random;
use second::replay::{uncut, Calls};
use second::vectors::{Entry, Vectors};
use std::path::Path;

const FOLDER: &str = concat!(env!("CARGO_MANIFEST_DIR"), "/../vectors");

const CUTS: [Cut; 3] = [Cut::Into(1), Cut::Random, Cut::Into(Calls::LONGEST)];

fn digits(load: &Entry, key: &str) -> String {
    let bytes = load.bytes(key).expect("bytes, if any");
    hex::written(&bytes.expect("the field is there"))
}

/// All that was replied before the state, which is the last part of a log.
fn joined_replies(log: &str) -> String {
    let lines = uncut(log);
    let calls = lines
        .iter()
        .take_while(|line| !line.starts_with("reception "));
    let pieces = calls.filter(|line| *line != "T 0");
    let replies = pieces.filter_map(|line| line.split(' ').nth(1));
    replies.collect()
}

fn assert_worked(id: &str, seed: u64) {
    let mut random = Random::new(seed);
    let vectors = Vectors::read(Path::new(FOLDER)).expect("the vectors files are well formed");
    let mut loads = vectors.loads.iter();
    let load = loads.find(|load| load.field("id") == Some(id));
    let load = load.expect("the load is there");
    let history = load.history().expect("a load has steps");
    let replies = load.replies().expect("a load has steps");
    for cut in CUTS {
        let name = format!("{id}, {cut:?}, seed {seed}");
        let log = assert_alike(&name, &script_of(&mut random, &history, cut));
        assert_eq!(joined_replies(&log), hex::written(&replies), "{name}");
        for (line, key) in [("live-bytes", "live"), ("version 01", "version_01")] {
            let line = format!("\n{line} {}\n", digits(load, key));
            assert!(log.contains(&line), "{name}: {key}");
        }
    }
}

#[test]
fn the_whole_load() {
    assert_worked("L-whole", seed::told("the_whole_load"));
}

#[test]
fn the_torn_load() {
    assert_worked("L-torn", seed::told("the_torn_load"));
}
