//! Each command: its layouts, its codes, and what it changes.

use super::{ask, ask_version, assert_store, load, open_load};
use super::{Line, A, B, BLOCK, RECORD, ZEROS};
use second::material::command::{tli, tlr};
use second::material::table::record_of;

#[test]
fn opn_and_tle_with_more_bytes_are_no_commands() {
    let mut line = Line::fresh();
    for payload in [&b"OPN000"[..], b"OPN ", b"TLE000", b"TLE0"] {
        ask(&mut line, payload, b"ERR010");
    }
    open_load(&mut line, 7, &A, &[RECORD.to_vec()]);
    ask(&mut line, b"TLE000", b"ERR010");
    assert_store(&line.loading, RECORD);
}

#[test]
fn short_payloads_and_unknown_names() {
    let mut line = Line::fresh();
    for payload in [
        &b"O"[..],
        b"TL",
        b"opn",
        b"CEX",
        b"ERR010",
        b"\x12OPN",
        &[0x13; 3],
    ] {
        ask(&mut line, payload, b"ERR010");
    }
}

#[test]
fn wrong_layouts() {
    let mut line = Line::fresh();
    for payload in [
        &b"GTS"[..],
        b"GTS0020",
        b"GTS002000",
        b"GTS003000",
        b"GTS0020:",
    ] {
        ask(&mut line, payload, b"GTS011");
    }
    for payload in [
        &b"TLI"[..],
        b"TLI01207TABVER000",
        b"TLI01207TABVER00080",
        b"TLI013070TABVER0008",
        b"TLI012/7TABVER0008",
        b"TLI01207TABVER000\x7F",
        b"TLI01207\x1FABVER0008",
    ] {
        ask(&mut line, payload, b"TLI011");
        assert_eq!(line.device.tables.load, None);
    }
}

#[test]
fn tlr_outside_a_load_is_010_whatever_its_layout() {
    let mut line = Line::fresh();
    for payload in [&b"TLR"[..], b"TLR000", b"TLR00100", b"TLRxyz", &tlr(BLOCK)] {
        ask(&mut line, payload, b"TLR010");
    }
    load(&mut line, 7, &A, &[], b"TLE000");
    ask(&mut line, b"TLR", b"TLR010");
    ask(&mut line, b"TLE", b"TLE010");
}

/// None adds anything, and none counts as answered 000.
#[test]
fn tlr_with_a_wrong_layout() {
    let mut line = Line::fresh();
    open_load(&mut line, 7, &A, &[]);
    for payload in [
        &b"TLR"[..],
        b"TLR01",
        b"TLR000",
        b"TLR00200",
        b"TLR01201010107AZa",
        b"TLR01201010107AZabc",
        b"TLR01301010107AZab",
        b"TLR01200010107AZab",
        b"TLR01202010107AZab",
        b"TLR0120x010107AZab",
        b"TLR01201011107AZab",
        b"TLR01201009107AZab",
        b"TLR01201010107\x1FZab",
        b"TLR012010101:7AZab",
        b"TLR0200201010107AZ007107A",
    ] {
        ask(&mut line, payload, b"TLR011");
    }
    assert_store(&line.loading, b"");
    ask(&mut line, b"TLE", b"TLE000");
    ask_version(&mut line, 7, &ZEROS);
}

#[test]
fn tlr_in_the_middle_of_which_a_record_is_bad_adds_nothing() {
    let mut line = Line::fresh();
    open_load(&mut line, 7, &A, &[RECORD.to_vec()]);
    ask(&mut line, &tlr(b"02010107AZab010107A\x7Fab"), b"TLR011");
    assert_store(&line.loading, RECORD);
}

#[test]
fn tli_tells_whether_the_version_is_held() {
    let mut line = Line::fresh();
    ask(&mut line, &tli(7, &ZEROS), b"TLI000");
    ask(&mut line, &tli(7, &A), b"TLI020");
    ask(&mut line, &tli(7, &A), b"TLI020");
    ask(&mut line, &tlr(BLOCK), b"TLR000");
    ask(&mut line, b"TLE", b"TLE000");
    ask(&mut line, &tli(7, &A), b"TLI000");
    ask(&mut line, &tli(8, &A), b"TLI020");
    ask(&mut line, &tli(8, &ZEROS), b"TLI000");
}

/// With either code, TLI000 included.
#[test]
fn tli_drops_an_open_load() {
    let mut line = Line::fresh();
    for version in [A, ZEROS] {
        open_load(&mut line, 7, &A, &[RECORD.to_vec()]);
        assert_store(&line.loading, RECORD);
        open_load(&mut line, 8, &version, &[]);
        assert_store(&line.loading, b"");
    }
    ask(&mut line, b"TLE", b"TLE000");
    assert_store(&line.live, b"");
}

#[test]
fn other_commands_leave_an_open_load() {
    let mut line = Line::fresh();
    open_load(&mut line, 7, &A, &[RECORD.to_vec()]);
    let tables = line.device.tables.clone();
    for (payload, code) in [
        (&b"TLI"[..], &b"TLI011"[..]),
        (b"TLI01208TABVER000\x7F", b"TLI011"),
        (b"TLR", b"TLR011"),
        (b"OPN", b"OPN000"),
        (b"GTS00207", b"GTS0000100000000000"),
        (b"GTS", b"GTS011"),
        (b"TLE0", b"ERR010"),
        (b"CEX", b"ERR010"),
    ] {
        ask(&mut line, payload, code);
        assert_eq!(line.device.tables, tables);
        assert_store(&line.loading, RECORD);
    }
    ask(&mut line, b"TLE", b"TLE000");
    assert_store(&line.live, RECORD);
}

#[test]
fn a_version_changes_at_tle_and_not_before() {
    let mut line = Line::fresh();
    open_load(&mut line, 7, &A, &[RECORD.to_vec()]);
    ask_version(&mut line, 7, &ZEROS);
    ask(&mut line, b"TLE", b"TLE000");
    ask_version(&mut line, 7, &A);
    ask_version(&mut line, 8, &ZEROS);
    open_load(&mut line, 7, &B, &[RECORD.to_vec()]);
    ask_version(&mut line, 7, &A);
    open_load(&mut line, 8, &B, &[]);
    ask_version(&mut line, 7, &A);
}

#[test]
fn network_00_sets_every_version_and_another_one_clears_00() {
    let mut line = Line::fresh();
    load(&mut line, 0, &A, &[RECORD.to_vec()], b"TLE000");
    (0..=99).for_each(|network| ask_version(&mut line, network, &A));
    load(&mut line, 9, &B, &[record_of(b'1', 9, 0, 8)], b"TLE000");
    ask_version(&mut line, 0, &ZEROS);
    ask_version(&mut line, 7, &A);
    ask_version(&mut line, 9, &B);
}

#[test]
fn a_load_without_tlr_takes_the_records_and_the_version() {
    let mut line = Line::fresh();
    let records = [7, 8, 7].map(|network| record_of(b'2', network, 0, 20));
    load(&mut line, 0, &A, &records, b"TLE000");
    load(&mut line, 7, &B, &[], b"TLE000");
    ask_version(&mut line, 7, &ZEROS);
    ask_version(&mut line, 8, &A);
    assert_store(&line.live, &records[1]);
    load(&mut line, 0, &B, &[], b"TLE000");
    (0..=99).for_each(|network| ask_version(&mut line, network, &ZEROS));
    assert_store(&line.live, b"");
}

/// A TLR whose records are all skipped is answered 000 all the same.
#[test]
fn skipped_records_bring_the_version() {
    let mut line = Line::fresh();
    let skipped = [
        record_of(b'1', 8, 0, 20),
        record_of(b'4', 7, 0, 20),
        record_of(0x13, 7, 0, 20),
        record_of(b'1', 0, 0, 20),
    ];
    load(&mut line, 7, &A, &skipped, b"TLE000");
    ask_version(&mut line, 7, &A);
    assert_store(&line.live, b"");
    load(&mut line, 0, &B, &skipped, b"TLE000");
    assert_store(&line.live, &skipped[0]);
}

#[test]
fn what_stays_comes_first_and_in_order() {
    let mut line = Line::fresh();
    let old = [7, 8, 9, 8, 7].map(|network| record_of(b'1', network, 1, 10));
    load(&mut line, 0, &A, &old, b"TLE000");
    let new = [record_of(b'3', 8, 2, 30), record_of(b'3', 8, 2, 30)];
    load(&mut line, 8, &B, &new, b"TLE000");
    let wanted = [&old[0], &old[2], &old[4], &new[0], &new[1]];
    assert_store(&line.live, &wanted.map(|one| &one[..]).concat());
    assert_eq!(line.device.tables.live.records, 5);
}

/// Bytes that are sent in pairs come to the store as they were.
#[test]
fn pairs_in_free_bytes() {
    let record = b"011107AZ\x13\x16\x17".to_vec();
    let mut line = Line::fresh();
    load(&mut line, 7, &A, std::slice::from_ref(&record), b"TLE000");
    assert_store(&line.live, &record);
}
