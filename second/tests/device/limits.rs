//! TLE021, exactly at the limits.

use super::{ask, ask_version, assert_store, load, open_load, Line, A, B};
use second::material::command::tlr;
use second::material::table::record_of;

/// That many records of one network and length, told apart by their numbers.
fn records(network: u8, count: usize, length: usize) -> Vec<Vec<u8>> {
    let numbers = 0..count;
    numbers
        .map(|number| record_of(b'1', network, number, length))
        .collect()
}

/// Records of 32,768 bytes in all, or of more or less with another last one.
fn full(network: u8, last: usize) -> Vec<Vec<u8>> {
    let mut full = records(network, 32, 997);
    full.push(record_of(b'2', network, 32, last));
    full
}

#[test]
fn a_load_alone() {
    for (new, code) in [
        (records(7, 512, 8), b"TLE000"),
        (records(7, 513, 8), b"TLE021"),
        (records(7, 512, 64), b"TLE000"),
        (full(7, 864), b"TLE000"),
        (full(7, 865), b"TLE021"),
        (records(7, 600, 60), b"TLE021"),
        (records(7, 33, 997), b"TLE021"),
    ] {
        for network in [0, 7] {
            let mut line = Line::fresh();
            load(&mut line, network, &A, &new, code);
            let live = match code {
                b"TLE000" => new.concat(),
                _ => Vec::new(),
            };
            assert_store(&line.live, &live);
        }
    }
}

/// The live set and all versions stay, also those of a load for all networks.
#[test]
fn a_load_that_is_over_changes_nothing() {
    let mut line = Line::fresh();
    let old = [records(7, 3, 20), records(8, 2, 30)].concat();
    load(&mut line, 0, &A, &old, b"TLE000");
    for network in [0, 7, 9] {
        let owner = [network, 5][usize::from(network == 0)];
        load(&mut line, network, &B, &records(owner, 513, 9), b"TLE021");
        load(&mut line, network, &B, &full(owner, 865), b"TLE021");
        assert_store(&line.live, &old.concat());
        (0..=99).for_each(|one| ask_version(&mut line, one, &A));
        ask(&mut line, b"TLE", b"TLE010");
    }
}

#[test]
fn a_load_together_with_what_stays() {
    for (staying, new, code) in [
        (records(8, 300, 8), records(7, 212, 8), b"TLE000"),
        (records(8, 300, 8), records(7, 213, 8), b"TLE021"),
        (records(8, 512, 8), records(7, 1, 8), b"TLE021"),
        (records(8, 32, 997), records(7, 1, 864), b"TLE000"),
        (records(8, 32, 997), records(7, 1, 865), b"TLE021"),
        (full(8, 864), Vec::new(), b"TLE000"),
        (full(8, 864), records(7, 1, 8), b"TLE021"),
    ] {
        let mut line = Line::fresh();
        load(&mut line, 0, &A, &staying, b"TLE000");
        load(&mut line, 7, &B, &new, code);
        let live = match code {
            b"TLE000" => [staying.concat(), new.concat()].concat(),
            _ => staying.concat(),
        };
        assert_store(&line.live, &live);
    }
}

#[test]
fn what_gives_way_does_not_count() {
    let mut line = Line::fresh();
    for new in [records(7, 512, 64), full(7, 864), records(7, 512, 8)] {
        for network in [7, 0] {
            load(&mut line, network, &A, &new, b"TLE000");
            assert_store(&line.live, &new.concat());
        }
    }
}

/// TLR is answered 000 still; neither the record that does not fit nor any after
/// it is kept.
#[test]
fn what_comes_after_the_limit() {
    let mut line = Line::fresh();
    open_load(&mut line, 7, &A, &full(7, 865));
    let kept = records(7, 32, 997).concat();
    assert_store(&line.loading, &kept);
    let small = [&b"01"[..], &record_of(b'1', 7, 0, 8)].concat();
    ask(&mut line, &tlr(&small), b"TLR000");
    assert_store(&line.loading, &kept);
    let open = line.device.tables.load.as_ref().expect("an open load");
    assert!(open.over && open.answered);
    ask(&mut line, b"TLR", b"TLR011");
    ask(&mut line, b"TLE", b"TLE021");
}

#[test]
fn skipped_records_pass_no_limit() {
    let mut line = Line::fresh();
    let mut all = records(7, 512, 64);
    all.extend(records(8, 100, 90));
    all.extend(records(0, 100, 90));
    load(&mut line, 7, &A, &all, b"TLE000");
    assert_store(&line.live, &records(7, 512, 64).concat());
}

/// A dropped load leaves no mark on the next.
#[test]
fn the_load_after_one_that_was_over() {
    let mut line = Line::fresh();
    open_load(&mut line, 7, &A, &records(7, 513, 8));
    open_load(&mut line, 7, &A, &records(7, 2, 8));
    ask(&mut line, b"TLE", b"TLE000");
    assert_store(&line.live, &records(7, 2, 8).concat());
}
