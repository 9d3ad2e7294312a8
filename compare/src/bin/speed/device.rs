//! The device calls: on an image in the caller's memory, and on the second
//! program's device.

use crate::report::{Group, Row};
use crate::stores::{records, FULL, LENGTH, LOADED, OTHER};
use compare::alike::device::{device_of, Devices, Kept};
use compare::proved::device::{self as proved, Image};
use compare::timing;
use second::device::{Done, ROOM};
use second::line::PIECE;
use second::material::command::{tli, tlr, VERSIONS};
use second::material::table::full_blocks;
use second::packet::framed;
use second::table::store::SIZE;
use second::table::ALL;
use std::hint::black_box;

const CALL: &str = "receive";
const ROUNDS: usize = 201;

/// What a slow line brings at once.
const BURST: usize = 64;

/// The records of a short load: single bytes take long.
const SHORT: usize = 1;

/// Calls of no bytes that a round makes.
const EMPTY: [&[u8]; 20] = [&[]; 20];

pub fn groups() -> Vec<Group> {
    let fresh = Devices::start([SIZE; 2]).0.kept();
    let full = after(&fresh, &load(OTHER, FULL));
    let mut rows = loads(&full);
    rows.push(single_bytes(&full));
    rows.extend(judging(&full));
    vec![Group {
        title: "Device, full tables, loads of records of 64 bytes",
        second: "device",
        rows,
    }]
}

/// A whole load, in a call for each packet and in bursts.
fn loads(full: &Kept<Image>) -> Vec<Row> {
    let packets = load(LOADED, FULL);
    let traffic = packets.concat();
    let by_packet = medians(full, &packets, |end| has_loaded(end, FULL));
    let mut all = vec![("by packet".to_string(), by_packet)];
    for length in [PIECE, BURST] {
        let pieces: Vec<&[u8]> = traffic.chunks(length).collect();
        let ns = medians(full, &pieces, |end| has_loaded(end, FULL));
        all.push((format!("bursts of {length}"), ns));
    }
    let rows = all.into_iter().map(|(cut, ns)| {
        let input = format!("{FULL} records, {cut}");
        Row::times(CALL, &input, "load", ns)
    });
    rows.collect()
}

fn single_bytes(full: &Kept<Image>) -> Row {
    let traffic = load(LOADED, SHORT).concat();
    let pieces: Vec<&[u8]> = traffic.chunks(1).collect();
    let ns = medians(full, &pieces, |end| has_loaded(end, SHORT));
    let ns = ns.map(|ns| ns / pieces.len() as f64);
    Row::times(CALL, &format!("{SHORT} record, single bytes"), "byte", ns)
}

/// Calls that have nothing but the state to judge: with no load open, and with one
/// that has all its records and waits for TLE.
fn judging(full: &Kept<Image>) -> [Row; 2] {
    let packets = load(LOADED, FULL);
    let open = after(full, &packets[..packets.len() - 1]);
    assert_eq!(open.device.load_records, FULL);
    [("live store full", full), ("both stores full", &open)].map(|(stores, start)| {
        let ns = medians(start, &EMPTY, |end| end == start);
        let ns = ns.map(|ns| ns / EMPTY.len() as f64);
        Row::times(CALL, &format!("no bytes, {stores}"), "call", ns)
    })
}

/// The packets of a load for all networks. What is live gives way to it, whatever
/// its network, so that a full set can come onto full tables of another one.
fn load(network: u8, count: usize) -> Vec<Vec<u8>> {
    let blocks = full_blocks(&records(network, LENGTH, count));
    let mut payloads = vec![tli(ALL, &VERSIONS[1])];
    payloads.extend(blocks.iter().map(|block| tlr(block)));
    payloads.push(b"TLE".to_vec());
    payloads.iter().map(|payload| framed(payload)).collect()
}

/// What both programs have after these pieces. Each call must come to the same,
/// and none may be refused.
fn after(start: &Kept<Image>, pieces: &[impl AsRef<[u8]>]) -> Kept<Image> {
    let mut devices = Devices::of(start);
    for piece in pieces {
        let all = devices.hand_over(piece.as_ref(), ROOM);
        assert!(all.iter().all(|done| done.refusal == 0));
    }
    devices.kept()
}

/// Whether the load of so many records has been done. The tables may have had as
/// many before, so what is in the store is looked at too.
fn has_loaded(end: &Kept<Image>, count: usize) -> bool {
    let wanted = records(LOADED, LENGTH, count).concat();
    end.device.live_records == count && end.live.starts_with(&wanted)
}

/// What it takes to hand over all pieces, from the same start in each round. The
/// end that both programs come to must be right.
fn medians(
    start: &Kept<Image>,
    pieces: &[impl AsRef<[u8]>],
    is_right: impl Fn(&Kept<Image>) -> bool,
) -> [f64; 2] {
    assert!(is_right(&after(start, pieces)), "the end is another");
    let second = Kept {
        device: device_of(&start.device).expect("the image is a device's"),
        live: start.live.clone(),
        loading: start.loading.clone(),
    };
    timing::medians(ROUNDS, |side| match side {
        0 => timing::average_from(1, start, |kept| {
            hand_over(pieces, |piece, out| {
                let (live, loading) = (&mut kept.live, &mut kept.loading);
                proved::receive(&mut kept.device, piece, out, live, loading)
            });
        }),
        _ => timing::average_from(1, &second, |kept| {
            hand_over(pieces, |piece, out| {
                let (live, loading) = (&mut kept.live, &mut kept.loading);
                kept.device.receive(piece, out, live, loading)
            });
        }),
    })
}

/// Offers each piece until all of it is taken, an empty one once.
fn hand_over(pieces: &[impl AsRef<[u8]>], mut receive: impl FnMut(&[u8], &mut [u8; ROOM]) -> Done) {
    let mut out = [0; ROOM];
    for piece in pieces {
        let mut rest = piece.as_ref();
        loop {
            let done = receive(black_box(rest), black_box(&mut out));
            rest = &rest[done.taken..];
            if rest.is_empty() {
                break;
            }
        }
    }
}
