//! Loads, from TLI to TLE, and what lies between.

use super::{records, Calls, A, B, BLOCK, RECORD};
use crate::device::{CAN, NAK};
use crate::material::command::{gts, tli, tlr};
use crate::material::table::{block_of, record_of};
use crate::table::version::NONE;

pub fn cases(calls: &mut Calls) {
    calls.clear();
    versions(calls);
    what_leaves_a_load_open(calls);
    what_drops_a_load(calls);
    without_records(calls);
    closed(calls);
}

/// Asks for the versions that a load for one network could have changed.
fn ask(calls: &mut Calls) {
    [0, 7, 8, 99]
        .iter()
        .for_each(|&network| calls.send(&gts(network)));
}

/// A version that is the one held and one that is not, for all networks and for
/// one; it stays until TLE.
fn versions(calls: &mut Calls) {
    for (network, version) in [(0, A), (0, A), (7, B), (7, A), (8, A), (0, A), (0, NONE)] {
        calls.send(&tli(network, &version));
        ask(calls);
        calls.send(&tlr(BLOCK));
        calls.send(b"TLE");
        ask(calls);
    }
}

fn what_leaves_a_load_open(calls: &mut Calls) {
    calls.open_load(7, &A, &records(7, 3, 20));
    calls.send(b"OPN");
    calls.send(&gts(7));
    calls.piece(&[CAN, NAK]);
    calls.send(b"TLI01207");
    calls.send(b"TLE0");
    calls.send(b"TLR");
    calls.piece(b"\x16TLE\x17\x00\x00");
    calls.timeout();
    calls.send(&tlr(BLOCK));
    calls.send(b"TLE");
    ask(calls);
}

/// Another TLI, for the same network and for another, also with the version that
/// is held; and a restart.
fn what_drops_a_load(calls: &mut Calls) {
    for (network, version) in [(7, B), (8, NONE), (0, A)] {
        calls.open_load(7, &A, &records(7, 5, 30));
        calls.load(network, &version, &[]);
        ask(calls);
    }
    calls.open_load(7, &B, &records(7, 5, 30));
    calls.restart();
    calls.send(&tlr(BLOCK));
    calls.send(b"TLE");
    ask(calls);
}

/// No TLR, one that was answered 011, and one whose records are all skipped: only
/// the last brings its version.
fn without_records(calls: &mut Calls) {
    let bad = tlr(b"00010107AZab");
    let skipped = tlr(&block_of(&[record_of(b'1', 9, 0, 9)]));
    for network in [7, 0] {
        for between in [None, Some(&bad), Some(&skipped)] {
            calls.load(7, &A, &[RECORD.to_vec()]);
            calls.send(&tli(network, &B));
            between.iter().for_each(|payload| calls.send(payload));
            calls.send(b"TLE");
            ask(calls);
        }
    }
}

/// A load that is closed takes no more and cannot be closed again.
fn closed(calls: &mut Calls) {
    calls.load(7, &A, &[RECORD.to_vec(), RECORD.to_vec()]);
    calls.send(&tlr(BLOCK));
    calls.send(b"TLE");
    ask(calls);
}
