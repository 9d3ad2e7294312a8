//! The stored script: that it shows what it is there for.

use super::log;
use second::device::State;
use second::hex;
use second::line::Line;
use second::replay::stored;
use second::vectors::Vectors;
use std::collections::{BTreeMap, BTreeSet};
use std::path::Path;

/// Every response that there is, those of a GTS000 taken as one.
const RESPONSES: [&str; 13] = [
    "OPN000", "GTS000", "GTS011", "TLI000", "TLI011", "TLI020", "TLR000", "TLR010", "TLR011",
    "TLE000", "TLE010", "TLE021", "ERR010",
];

fn script() -> Vec<u8> {
    let folder = concat!(env!("CARGO_MANIFEST_DIR"), "/../vectors");
    let vectors = Vectors::read(Path::new(folder)).expect("the vectors files are well formed");
    stored::script(&vectors).expect("the vectors are whole")
}

/// What a script asks for, without its end where that breaks off.
enum Call<'a> {
    Piece(&'a [u8]),
    Event(u8),
}

fn calls(mut script: &[u8]) -> Vec<Call<'_>> {
    let mut calls = Vec::new();
    while let [letter, after @ ..] = script {
        script = match (letter, after) {
            (b'B', [high, low, after @ ..]) => {
                let length = usize::from(u16::from_be_bytes([*high, *low]));
                let Some((piece, after)) = after.split_at_checked(length) else {
                    break;
                };
                calls.push(Call::Piece(piece));
                after
            }
            _ => {
                calls.push(Call::Event(*letter));
                after
            }
        };
    }
    calls
}

/// A reception state by its number.
fn number(state: State) -> usize {
    match state {
        State::Idle => 0,
        State::InData => 1,
        State::InDataAfter13h => 2,
        State::FirstCheckByte => 3,
        State::SecondCheckByte(_) => 4,
    }
}

#[test]
fn its_size() {
    let length = script().len();
    assert!((100_000..=300_000).contains(&length), "{length}");
}

/// Every response, each of them sent again as well, and the two replies of one
/// byte. No call is refused.
#[test]
fn every_reply() {
    let log = log(&script());
    let (mut given, mut again) = (BTreeSet::new(), BTreeSet::new());
    for line in log.lines().filter_map(|line| line.strip_prefix("B ")) {
        let fields: Vec<&str> = line.split(' ').collect();
        assert_eq!((fields[0], fields.len()), ("0", 3), "{line}");
        let (digits, set) = match fields[2].split_at_checked(4) {
            Some(("0616", _)) => (&fields[2][4..16], &mut given),
            Some(_) => (&fields[2][2..14], &mut again),
            None => (fields[2], &mut given),
        };
        set.insert(digits);
    }
    let hex_of = |one: &&str| hex::written(one.as_bytes());
    let mut wanted: BTreeSet<String> = RESPONSES.iter().map(hex_of).collect();
    assert!(wanted.iter().eq(again.iter()), "{again:?}");
    wanted.extend(["-", "04", "15"].map(str::to_string));
    assert!(wanted.iter().eq(given.iter()), "{given:?}");
    assert!(!log.contains("\nT 1") && !log.contains("\nR 1"));
}

/// Timeouts and restarts in each of the five reception states, in a packet that
/// is spoiled and in one that is not, with a load open and without.
#[test]
fn events_in_every_reception_state() {
    let script = script();
    let mut line = Line::fresh();
    let mut seen = BTreeMap::new();
    for call in calls(&script) {
        let reception = &line.device.reception;
        let state = (number(reception.state), reception.spoiled);
        let open = line.device.tables.load.is_some();
        match call {
            Call::Piece(piece) => line.take(piece, |_| {}),
            Call::Event(event) => {
                *seen.entry((event, state, open)).or_insert(0) += 1;
                let (live, loading) = (&line.live, &mut line.loading);
                match event {
                    b'T' => line.device.timeout(64, live, loading),
                    _ => line.device.restart(64, live, loading),
                };
            }
        }
    }
    for event in [b'T', b'R'] {
        for state in 0..5 {
            assert!(seen.contains_key(&(event, (state, false), true)), "{state}");
        }
        for state in [1, 3, 4] {
            assert!(seen.contains_key(&(event, (state, true), true)), "{state}");
        }
        assert!(seen.contains_key(&(event, (0, false), false)));
    }
}

/// Those picked by hand for either limit, and one at the end.
#[test]
fn loads_that_fail() {
    let over = hex::written(b"TLE021");
    let count = log(&script()).matches(&format!(" 0616{over}")).count();
    assert!(count >= 7, "{count}");
}

/// The end of the log, from the last call on.
fn last_lines() -> Vec<String> {
    let log = log(&script());
    let (_, state) = log.split_once("\nbad script\n").expect("its end");
    state.lines().map(str::to_string).collect()
}

/// The middle of an open load and of a spoiled packet, whose last check byte is
/// in a call that must not be made, and a response that was sent again twice.
#[test]
fn its_last_state() {
    let lines = last_lines();
    assert_eq!(lines[0], "reception second-C1 1 8");
    assert_eq!(lines[1], "held 16544C5230303017951C 2");
    assert_eq!(lines[2], "load open 07 207E207E207E207E207E 284 3 0 1");
    let every_byte: Vec<u8> = (0..=255).collect();
    let loading = [b"264307 ~", &every_byte[..], b"010107AZab010107AZab"].concat();
    let loading = hex::written(&loading);
    assert_eq!(lines[5], format!("loading-bytes {loading}"));
    assert!(lines[106].starts_with("store 4754533030323037"), "GTS00207");
    assert!(lines[106].ends_with("F9FAFBFCFDFEFF"));
    assert_eq!(lines[106].len(), 6 + 4096);
    assert_eq!(lines.len(), 107);
}

/// Records of four loads, those for network 2 behind what stayed and the worked one
/// for network 1 behind all; and nothing of the one for network 3 that could not be
/// closed, nor of the one for network 1 that was torn.
#[test]
fn its_last_tables() {
    let lines = last_lines();
    let stayed = format!("{:x<40}", "040303  ");
    let new = "011102  xxx011102 !xxx011102 \"xxx".to_string();
    let longest = format!("{:x<997}", "997299  ");
    let worked = "008101AB".to_string();
    let live = hex::written([stayed, new, longest, worked].concat().as_bytes());
    assert_eq!(lines[3], "live 1078 6");
    assert_eq!(lines[4], format!("live-bytes {live}"));
    for network in 0..100 {
        let version = match network {
            0 => "30303030303030303030",
            1 => "56455253494F4E303031",
            2 | 99 => "207E207E207E207E207E",
            _ => "54414256455230303038",
        };
        let wanted = format!("version {network:02} {version}");
        assert_eq!(lines[6 + network], wanted);
    }
}
