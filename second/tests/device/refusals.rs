//! Refusals 1, 2 and 3, their order, and that they change nothing.

use super::{load, open_load, Line, A, B, RECORD};
use second::by_hand::table::Extent;
use second::device::{Device, Done, Held, OpenLoad, State};
use second::packet::framed;

const RECEIVE: usize = 0;
const CALLS: usize = 3;

/// One of the device's calls, with an OPN for the one that takes a piece. A
/// refused call must leave everything as it was.
fn refusal(line: &mut Line, call: usize, room: usize) -> u8 {
    let mut out = vec![0xEE; room];
    let before = (line.device.clone(), line.live.clone(), line.loading.clone());
    let Line {
        device,
        live,
        loading,
    } = line;
    let done = match call {
        RECEIVE => device.receive(&framed(b"OPN"), &mut out, live, loading),
        1 => device.timeout(out.len(), live, loading),
        _ => device.restart(out.len(), live, loading),
    };
    if done.refusal != 0 {
        let nothing = Done {
            refusal: done.refusal,
            ..Done::default()
        };
        assert_eq!(done, nothing);
        assert!(out.iter().all(|&byte| byte == 0xEE));
        assert!(line.device == before.0);
        assert!((&line.live, &line.loading) == (&before.1, &before.2));
    }
    done.refusal
}

/// A device with live records, an open load and a held response.
fn busy() -> Line {
    let mut line = Line::fresh();
    load(&mut line, 0, &A, &[RECORD.to_vec()], b"TLE000");
    open_load(&mut line, 7, &B, &[RECORD.to_vec(), RECORD.to_vec()]);
    line
}

/// Every call must be refused so after the change, and not before it.
fn assert_refused(change: impl Fn(&mut Line), refusal_number: u8) {
    for call in 0..CALLS {
        let mut line = busy();
        change(&mut line);
        assert_eq!(refusal(&mut line, call, 64), refusal_number, "{call}");
        assert_eq!(refusal(&mut busy(), call, 64), 0, "{call}");
    }
}

fn open(line: &mut Line) -> &mut OpenLoad {
    line.device.tables.load.as_mut().expect("an open load")
}

#[test]
fn room_is_64_at_least() {
    for call in 0..CALLS {
        for room in [0, 1, 11, 24, 63] {
            assert_eq!(refusal(&mut busy(), call, room), 1, "{call} {room}");
        }
        for room in [64, 65, 1000] {
            assert_eq!(refusal(&mut busy(), call, room), 0, "{call} {room}");
        }
    }
}

#[test]
fn stores_have_32768_bytes() {
    for length in [0, 1, 32_767, 32_769, 65_536] {
        assert_refused(|line| line.live.resize(length, 0), 2);
        assert_refused(|line| line.loading.resize(length, 0), 2);
    }
}

#[test]
fn the_order_of_refusals() {
    let break_a_rule = |line: &mut Line| line.device.tables.versions[5][5] = 0x7F;
    for call in 0..CALLS {
        let mut line = busy();
        break_a_rule(&mut line);
        assert_eq!(refusal(&mut line, call, 63), 1);
        assert_eq!(refusal(&mut line, call, 64), 3);
        line.loading.pop();
        assert_eq!(refusal(&mut line, call, 64), 2);
        assert_eq!(refusal(&mut line, call, 63), 1);
    }
}

#[test]
fn an_empty_piece_is_judged_as_well() {
    let mut line = busy();
    line.live[32_767] = 1;
    let mut out = [0; 64];
    let done = line
        .device
        .receive(&[], &mut out, &mut line.live, &mut line.loading);
    assert_eq!(done.refusal, 3);
}

#[test]
fn starting_zeroes_the_stores_or_is_refused() {
    let (mut live, mut loading) = (vec![1; 32_768], vec![2; 32_768]);
    assert!(Device::start(&mut live, &mut loading) == Ok(Line::fresh().device));
    assert!((live, loading) == (vec![0; 32_768], vec![0; 32_768]));
    for (one, other) in [(32_767, 32_768), (32_768, 32_769), (0, 0), (32_768, 0)] {
        let (mut live, mut loading) = (vec![1; one], vec![2; other]);
        assert!(Device::start(&mut live, &mut loading) == Err(2));
        assert!((live, loading) == (vec![1; one], vec![2; other]));
    }
}

#[test]
fn broken_reception() {
    assert_refused(|line| line.device.reception.count = 1, 3);
    assert_refused(|line| line.device.reception.spoiled = true, 3);
    let over = |line: &mut Line| {
        line.device.reception.state = State::InData;
        line.device.reception.count = 2049;
    };
    assert_refused(over, 3);
    let most = |line: &mut Line| {
        line.device.reception.state = State::SecondCheckByte(0xFF);
        line.device.reception.count = 2048;
        line.device.reception.spoiled = true;
        line.device.reception.store = [0x80; 2048];
    };
    assert_refused(most, 0);
}

#[test]
fn broken_versions() {
    for byte in [0x00, 0x1F, 0x7F, 0x80, 0xFF] {
        for network in [0, 50, 99] {
            assert_refused(|line| line.device.tables.versions[network][9] = byte, 3);
            assert_refused(|line| line.device.tables.versions[network][0] = byte, 3);
        }
        assert_refused(|line| open(line).version[3] = byte, 3);
    }
    assert_refused(|line| line.device.tables.versions = [B; 100], 0);
}

#[test]
fn broken_responses() {
    let hold = |payload: &[u8], resends: u8| {
        let payload = payload.to_vec();
        move |line: &mut Line| {
            line.device.held = Some(Held {
                payload: payload.clone(),
                resends,
            });
        }
    };
    for payload in [
        &b""[..],
        b"OPN",
        b"OPN010",
        b"TLR021",
        b"TLE011",
        b"GTS000",
        b"GTS0000100",
        b"ERR011",
        b"TLR0000",
        b"GTS000010TABVER000\x7F",
    ] {
        assert_refused(hold(payload, 0), 3);
    }
    for payload in [&b"OPN000"[..], b"TLI011", b"TLE021", b"GTS000010 ~ ~ ~ ~ ~"] {
        assert_refused(hold(payload, 3), 0);
        assert_refused(hold(payload, 4), 3);
        assert_refused(hold(payload, 255), 3);
    }
    assert_refused(|line| line.device.held = None, 0);
}

#[test]
fn broken_loads() {
    assert_refused(|line| open(line).network = 100, 3);
    assert_refused(|line| open(line).network = 8, 3);
    assert_refused(|line| open(line).network = 0, 0);
    assert_refused(|line| open(line).answered = false, 3);
    assert_refused(|line| open(line).over = true, 0);
    assert_refused(|line| open(line).extent.used -= 1, 3);
    assert_refused(|line| open(line).extent.used += 8, 3);
    assert_refused(|line| open(line).extent.used = usize::MAX, 3);
    assert_refused(|line| open(line).extent.records += 1, 3);
    assert_refused(|line| open(line).extent.records = usize::MAX, 3);
    assert_refused(|line| line.device.tables.load = None, 3);
}

/// Leaves the open load without records.
fn emptied(line: &mut Line) -> &mut OpenLoad {
    line.loading.fill(0);
    let open = open(line);
    open.extent = Extent::default();
    open
}

/// There is no record that could show it.
#[test]
fn the_network_of_an_empty_load() {
    for network in 0..=255 {
        let number = if network <= 99 { 0 } else { 3 };
        assert_refused(|line| emptied(line).network = network, number);
    }
}

/// Neither records nor the mark without an answered TLR.
#[test]
fn loads_that_no_tlr_was_answered_in() {
    let empty = |answered, over| {
        move |line: &mut Line| {
            let open = emptied(line);
            (open.answered, open.over) = (answered, over);
        }
    };
    assert_refused(empty(false, false), 0);
    assert_refused(empty(true, false), 0);
    assert_refused(empty(true, true), 0);
    assert_refused(empty(false, true), 3);
}

/// The store with no load open is all zero.
#[test]
fn a_loading_store_without_a_load() {
    for place in [0, 20_000, 32_767] {
        let close = move |line: &mut Line| {
            line.loading.fill(0);
            line.device.tables.load = None;
        };
        assert_refused(close, 0);
        let spot = move |line: &mut Line| {
            close(line);
            line.loading[place] = 1;
        };
        assert_refused(spot, 3);
    }
}

/// Each byte of the record's head, with a value that breaks its rule, and a rest
/// that is not zero.
#[test]
fn broken_stores() {
    let used = RECORD.len();
    for (place, byte) in [
        (0, b':'),
        (1, b'2'),
        (2, b'7'),
        (3, b'4'),
        (3, b'0'),
        (4, b'/'),
        (5, b':'),
        (6, 0x1F),
        (7, 0x7F),
        (2 * used, 1),
        (32_767, 1),
    ] {
        assert_refused(|line| line.live[place] = byte, 3);
        assert_refused(|line| line.loading[place] = byte, 3);
    }
    assert_refused(|line| line.live[8] = 0xFF, 0);
    assert_refused(|line| line.live[4] = b'9', 0);
    assert_refused(|line| line.loading[4] = b'9', 3);
    assert_refused(|line| line.live[5] = b'0', 3);
}

#[test]
fn broken_numbers_of_the_live_store() {
    for extent in [(0, 0), (10, 0), (10, 2), (9, 1), (11, 1), (usize::MAX, 1)] {
        let (used, records) = extent;
        let change = |line: &mut Line| line.device.tables.live = Extent { used, records };
        assert_refused(change, 3);
    }
}

/// One record too many, though every byte has its room.
#[test]
fn too_many_records() {
    for (count, number) in [(512, 0), (513, 3)] {
        let fill = |line: &mut Line| {
            let used = 8 * count;
            line.live.fill(0);
            line.live[..used].copy_from_slice(&b"008107AZ".repeat(count));
            line.device.tables.live = Extent {
                used,
                records: count,
            };
        };
        assert_refused(fill, number);
    }
}
