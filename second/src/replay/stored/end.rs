//! The end of the stored script: a state with something in every place.

use super::{records, worked, Calls, A, B, RECORD};
use crate::device::NAK;
use crate::material::command::{tli, tlr};
use crate::material::table::{block_of, record_of};
use crate::packet::LARGEST_PAYLOAD;
use crate::stored::counting;
use crate::vectors::Vectors;

pub fn case(calls: &mut Calls, vectors: &Vectors) -> Result<(), String> {
    calls.restart();
    calls.clear();
    live_records_of_several_loads(calls);
    // Its old record and old name are seen in the last state; TLI drops what is open.
    worked::torn(calls, vectors)?;
    // A payload longer than any after it: its end stays in the reception store,
    // though the packet is spoiled.
    calls.send(&counting(LARGEST_PAYLOAD + 1));
    open_load(calls);
    calls.piece(&[NAK, NAK]);
    // The last check byte is left out. A call that hands it over breaks off, so
    // that it must not be made.
    calls.piece(b"\x16GTS\x13-00207\x17\xC1");
    calls.script.extend(b"B\x00\x02\xFC");
    Ok(())
}

/// One network's records give way to new ones, behind those that stay; one load
/// cannot be closed.
fn live_records_of_several_loads(calls: &mut Calls) {
    let all = [(1, b'1'), (2, b'2'), (3, b'3'), (1, b'3'), (2, b'1')];
    let all = all.map(|(network, kind)| record_of(kind, network, 0, 40));
    calls.load(0, &A, &all);
    calls.load(2, &B, &records(2, 3, 11));
    calls.load(99, &B, &[record_of(b'2', 99, 0, 997)]);
    calls.load(3, &B, &records(3, 513, 8));
}

/// A free byte of every value, and records that are skipped.
fn open_load(calls: &mut Calls) {
    let mut every_byte = b"264307 ~".to_vec();
    every_byte.extend(0..=255);
    calls.send(&tli(7, &B));
    calls.send(&tlr(&block_of(&[every_byte, b"008407AZ".to_vec()])));
    calls.send(&tlr(&block_of(&[
        b"008106AZ".to_vec(),
        RECORD.to_vec(),
        RECORD.to_vec(),
    ])));
}
