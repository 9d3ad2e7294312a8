//! Every entry of the vectors files against the second program.

mod device;
mod loads;
mod messages;
mod objects;
mod packets;
mod tables;

use second::vectors::{Entry, Vectors};
use std::collections::BTreeMap;
use std::path::Path;

fn vectors() -> Vectors {
    let folder = concat!(env!("CARGO_MANIFEST_DIR"), "/../vectors");
    Vectors::read(Path::new(folder)).expect("the vectors files are well formed")
}

fn text<'a>(entry: &'a Entry, key: &str) -> &'a str {
    entry.text(key).unwrap_or_else(|why| panic!("{why}"))
}

fn bytes(entry: &Entry, key: &str) -> Option<Vec<u8>> {
    entry.bytes(key).unwrap_or_else(|why| panic!("{why}"))
}

/// How many entries there are of each value.
fn counts<'a>(values: impl Iterator<Item = &'a str>) -> BTreeMap<&'a str, usize> {
    let mut counts = BTreeMap::new();
    for value in values {
        *counts.entry(value).or_default() += 1;
    }
    counts
}
