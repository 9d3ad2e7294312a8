//! A small load, from TLI to TLE, with the log after each step; and loads that
//! show what the small one does not. The checks were taken one bit at a time by
//! neither program.

use super::{assert_log, log, piece};
use second::material::command::{tli, tlr};
use second::material::table::{full_blocks, record_of};
use second::replay::Calls;

const TLI: &[u8] = b"\x16TLI01207TABVER0008\x17\xA8\x40";
const TLR: &[u8] = b"\x16TLR01201010107AZab\x17\xA3\xC7";
const TLE: &[u8] = b"\x16TLE\x17\x47\xE9";
const GTS: &[u8] = b"\x16GTS00207\x17\xC1\xFC";

#[test]
fn opened() {
    let lines = "\
B 0 22 0616544C493032301713D9
reception idle 0 0
held 16544C493032301713D9 0
load open 07 54414256455230303038 0 0 0 0
live 0 0
live-bytes -
loading-bytes -
";
    let store = "544C49303132303754414256455230303038";
    assert_log(&piece(TLI), lines, &[], store);
}

#[test]
fn with_a_record() {
    let lines = "\
B 0 22 0616544C493032301713D9
B 0 22 0616544C5230303017951C
reception idle 0 0
held 16544C5230303017951C 0
load open 07 54414256455230303038 10 1 0 1
live 0 0
live-bytes -
loading-bytes 303130313037415A6162
";
    let store = "544C523031323031303130313037415A6162";
    assert_log(&[TLI, TLR].map(piece).concat(), lines, &[], store);
}

#[test]
fn closed() {
    let lines = "\
B 0 22 0616544C493032301713D9
B 0 22 0616544C5230303017951C
B 0 7 0616544C4530303017F692
reception idle 0 0
held 16544C4530303017F692 0
load closed
live 10 1
live-bytes 303130313037415A6162
loading-bytes -
";
    let versions = [(7, "54414256455230303038")];
    let store = "544C453031323031303130313037415A6162";
    let script = [TLI, TLR, TLE].map(piece).concat();
    assert_log(&script, lines, &versions, store);
}

/// The same as one piece, with what was loaded asked for, and half a packet
/// behind it.
#[test]
fn in_one_piece() {
    let script = piece(&[TLI, TLR, TLE, GTS, b"\x15", &TLE[..6]].concat());
    let lines = "\
B 0 22 0616544C493032301713D9
B 0 22 0616544C5230303017951C
B 0 7 0616544C4530303017F692
B 0 12 06164754533030303031305441425645523030303817B692
B 0 1 164754533030303031305441425645523030303817B692
B 0 6 -
reception second-47 0 3
held 164754533030303031305441425645523030303817B692 1
load closed
live 10 1
live-bytes 303130313037415A6162
loading-bytes -
";
    let versions = [(7, "54414256455230303038")];
    let store = "544C453030323037303130313037415A6162";
    assert_log(&script, lines, &versions, store);
}

/// A restart drops the load; the live set and its version stay.
#[test]
fn dropped() {
    let script = [TLI, TLR, TLE, TLI, TLR].map(piece).concat();
    let open = log(&script);
    assert!(open.contains("\nload open 07 54414256455230303038 10 1 0 1\nlive 10 1\n"));
    assert!(open.contains("B 0 22 0616544C49303030"), "TLI000");
    let dropped = log(&[&script[..], b"R"].concat());
    let after = "\
R 0
reception idle 0 0
held - 0
load closed
live 10 1
live-bytes 303130313037415A6162
loading-bytes -
";
    assert!(dropped.contains(after));
    assert!(dropped.contains("\nversion 07 54414256455230303038\n"));
}

/// A load for all networks sets every version.
#[test]
fn for_all_networks() {
    let mut calls = Calls::default();
    calls.send(&tli(0, b" ~ ~ ~ ~ ~"));
    calls.send(&tlr(b"01010107AZab"));
    let open = log(&calls.script);
    assert!(open.contains("\nload open 00 207E207E207E207E207E 10 1 0 1\n"));
    calls.send(b"TLE");
    let closed = log(&calls.script);
    for network in 0..100 {
        let line = format!("\nversion {network:02} 207E207E207E207E207E\n");
        assert!(closed.contains(&line), "{network}");
    }
}

/// 513 records of eight bytes: the load keeps 512 and is over.
#[test]
fn over() {
    let records: Vec<Vec<u8>> = (0..513).map(|one| record_of(b'1', 7, one, 8)).collect();
    let mut calls = Calls::default();
    calls.send(&tli(7, b"TABVER0008"));
    for block in full_blocks(&records) {
        calls.send(&tlr(&block));
    }
    let log = log(&calls.script);
    assert!(log.contains("\nload open 07 54414256455230303038 4096 512 1 1\nlive 0 0\n"));
    let first = "\nloading-bytes 3030383130372020303038313037202130";
    assert!(log.contains(first));
    let bytes = log.lines().find(|line| line.starts_with("loading-bytes "));
    assert_eq!(bytes.map(str::len), Some(14 + 2 * 4096));
}
