//! The worked loads: what each packet is answered, and what is live in the end.

use super::{bytes, text, vectors};
use second::device::ROOM;
use second::line::Line;
use second::vectors::{Entry, DEVICE, HOST, TIMEOUT};
use std::mem::take;

/// A fresh device after all steps, each of which was answered as written.
fn after_steps(load: &Entry) -> Line {
    let id = text(load, "id");
    let mut line = Line::fresh();
    let mut replies = Vec::new();
    for (sender, bytes) in load.steps().expect("a load has steps") {
        if sender == DEVICE {
            assert_eq!(take(&mut replies), [bytes], "{id}");
            continue;
        }
        assert!(replies.is_empty(), "{id}: a reply too many");
        match sender {
            HOST => replies = line.replies(&bytes),
            TIMEOUT => {
                let done = line.device.timeout(ROOM, &line.live, &line.loading);
                assert_eq!(done.refusal, 0, "{id}");
            }
            _ => panic!("{id}: {sender}"),
        }
    }
    assert!(replies.is_empty(), "{id}: a reply too many");
    line
}

#[test]
fn every_load_comes_to_what_is_written() {
    let loads = vectors().loads;
    let ids: Vec<&str> = loads.iter().map(|load| text(load, "id")).collect();
    assert_eq!(ids, ["L-whole", "L-torn"]);
    for load in &loads {
        let Line { device, live, .. } = after_steps(load);
        let tables = device.tables;
        let records = &live[..tables.live.used];
        assert_eq!(Some(records.to_vec()), bytes(load, "live"));
        let version = tables.versions[1].to_vec();
        assert_eq!(Some(version), bytes(load, "version_01"));
    }
}

/// The second load is open and has its record, of which nothing is live.
#[test]
fn the_torn_load_is_still_open() {
    let loads = vectors().loads;
    assert_eq!(after_steps(&loads[0]).device.tables.load, None);
    let Line {
        device, loading, ..
    } = after_steps(&loads[1]);
    let load = device.tables.load.expect("a load is open");
    assert_eq!((load.network, &load.version), (1, b"VERSION002"));
    assert_eq!(&loading[..load.extent.used], b"008101CD");
}
