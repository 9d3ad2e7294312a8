//! The commands: every one with its right layout and with wrong ones, in an open
//! load and outside one.

use super::{Calls, A, BLOCK, RECORD};
use crate::device::NAK;
use crate::material::command::{gts, tli, tlr};
use crate::material::table::{block_of, record_of};

/// All but what has a block, and but what opens a load.
const PAYLOADS: [&[u8]; 40] = [
    b"O",
    b"OP",
    b"OPN",
    b"OPN0",
    b"OPN000",
    b"opn",
    b"\x12OPN",
    b"CEX000",
    b"ERR010",
    b"GT",
    b"GTS",
    b"GTS002",
    b"GTS0020",
    b"GTS00207",
    b"GTS002070",
    b"GTS00307",
    b"GTS00200207",
    b"GTS0020:",
    b"GTS002/7",
    b"GTS002 7",
    b"GTS00",
    b"TLI",
    b"TLI012",
    b"TLI01207",
    b"TLI01207TABVER000",
    b"TLI01207TABVER00080",
    b"TLI01107TABVER0008",
    b"TLI0120:TABVER0008",
    b"TLI012/7TABVER0008",
    b"TLI01207TABVER000\x1F",
    b"TLI01207\x7FABVER0008",
    b"TLI01207TABV\x00R0008",
    b"TL",
    b"TLE",
    b"TLE0",
    b"TLE000",
    b"TLS",
    b"TLR",
    b"TLR00",
    b"TLR000",
];

/// What stands behind the name TLR: faults, one each, in a block that would else
/// be good. Some numbers are written so that they come out right for who does not
/// look at their digits.
const FAULTS: [&[u8]; 29] = [
    b"01101010107AZab",
    b"01301010107AZab",
    b"11201010107AZab",
    b"01201010107AZab0",
    b"00<01010107AZab",
    b" 1201010107AZab",
    b"01200010107AZab",
    b"01202010107AZab",
    b"0120:010107AZab",
    b"012/;010107AZab",
    b"01201000107AZab",
    b"01201009107AZab",
    b"01201011107AZab",
    b"01201998107AZab",
    b"0120100:107AZab",
    b"012010/D107AZab",
    b"00901007107A",
    b"012010101:7AZab",
    b"0120101010/AZab",
    b"01201010107\x1FZab",
    b"01201010107A\x7Fab",
    b"01201010907A\x7Fab",
    b"00200",
    b"00201",
    b"0010",
    b"02201010107AZab010107AZab",
    b"02203010107AZab010107AZab",
    b"02202010107AZab010107A\x7Fab",
    b"02202010107AZab009107AZab",
];

/// TLIs that open a load.
const OPENING: [&[u8]; 3] = [
    b"TLI01207TABVER0008",
    b"TLI01200 ~ ~ ~ ~ ~",
    b"TLI012990000000000",
];

pub fn cases(calls: &mut Calls) {
    let payloads = payloads();
    calls.restart();
    for payload in &payloads {
        calls.send(payload);
        calls.piece(&[NAK]);
    }
    for payload in &payloads {
        calls.send(&tli(7, &A));
        calls.send(payload);
        calls.piece(&[NAK]);
        calls.send(b"TLE");
    }
    (0..=99).for_each(|network| calls.send(&gts(network)));
}

/// What opens a load comes last: until then none is open, where none was.
fn payloads() -> Vec<Vec<u8>> {
    let mut payloads: Vec<Vec<u8>> = PAYLOADS.iter().map(|one| one.to_vec()).collect();
    payloads.extend(FAULTS.iter().map(|fault| [b"TLR", *fault].concat()));
    payloads.extend(blocks().iter().map(|block| tlr(block)));
    payloads.push(longer_than_told());
    payloads.extend(OPENING.iter().map(|one| one.to_vec()));
    payloads
}

/// Good blocks: with records that are skipped, at both ends of what a record may
/// be, and with every value among the free bytes.
fn blocks() -> Vec<Vec<u8>> {
    let kinds = (0..=255).map(|kind| record_of(kind, 7, 0, 8));
    let kinds: Vec<Vec<u8>> = kinds.collect();
    let mut every_byte = b"264107 ~".to_vec();
    every_byte.extend(0..=255);
    vec![
        BLOCK.to_vec(),
        block_of(&kinds[..99]),
        block_of(&kinds[99..198]),
        block_of(&kinds[198..]),
        block_of(&[b"008100AZ".to_vec(), b"008108AZ".to_vec()]),
        block_of(&[RECORD.to_vec(), b"008499  ".to_vec(), RECORD.to_vec()]),
        block_of(&[record_of(b'3', 7, 0, 997)]),
        block_of(&[every_byte]),
    ]
}

/// A good block of 1,010 bytes, of which a length field tells the last digits.
fn longer_than_told() -> Vec<u8> {
    let block = block_of(&vec![record_of(b'1', 7, 0, 504); 2]);
    [b"TLR010", &block[..]].concat()
}

#[cfg(test)]
mod tests {
    use super::super::tests::responses;
    use super::{blocks, longer_than_told, tli, tlr, A, FAULTS};

    /// What a payload is answered in an open load.
    fn answer(payload: &[u8]) -> Vec<String> {
        responses(|calls| {
            calls.send(&tli(7, &A));
            calls.send(payload);
        })
    }

    #[test]
    fn every_fault_is_one() {
        for fault in FAULTS {
            let payload = [b"TLR", fault].concat();
            assert_eq!(answer(&payload), ["TLI020", "TLR011"], "{fault:?}");
        }
        assert_eq!(answer(&longer_than_told()), ["TLI020", "TLR011"]);
    }

    #[test]
    fn the_blocks_are_good() {
        for block in blocks() {
            assert_eq!(answer(&tlr(&block)), ["TLI020", "TLR000"], "{block:?}");
        }
    }
}
