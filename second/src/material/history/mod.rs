//! Histories: traffic with timeouts and restarts in it, and the scripts that
//! hand one over, cut in one way or another.

mod end;

use super::traffic::{random_traffic, Loads};
use crate::packet::{DC3, ETB, SYN};
use crate::random::Random;
use crate::replay::Calls;
use end::random_end;

/// What a device meets, however it is cut into calls.
#[derive(Clone, Debug, PartialEq)]
pub enum Event {
    Bytes(Vec<u8>),
    Timeout,
    Restart,
}

/// How the bytes of a history become pieces.
#[derive(Clone, Copy, Debug, PartialEq)]
pub enum Cut {
    /// Of so many bytes each, but for the last.
    Into(usize),
    /// Of any size up to 4,096 bytes, with runs of single bytes, and with empty
    /// pieces among them.
    Random,
}

/// The lengths up to which the pieces of a run go. Most are short, so that a
/// packet comes in several.
const MOST: [usize; 5] = [1, 2, 20, 300, 4096];

/// A history of traffic of at most that many bytes, and of at least half of them.
/// It is broken off anywhere, so that a packet or a load is often left half done.
/// One in four has another end behind that, of some thousand bytes at most.
pub fn random_history(random: &mut Random, length: usize, loads: Loads) -> Vec<Event> {
    let traffic = random_traffic(random, length, loads);
    let half = length / 2;
    let end = half + random_place(random, &traffic[half..length], length - half);
    let most_apart = random.pick(&[400, 4_000, 40_000, 2 * length]);
    let mut rest = &traffic[..end];
    let mut history = Vec::new();
    while !rest.is_empty() {
        let (bytes, after) = rest.split_at(random_place(random, rest, most_apart));
        history.push(Event::Bytes(bytes.to_vec()));
        if !after.is_empty() || random.below(8) == 0 {
            history.push(random_event(random));
        }
        rest = after;
    }
    if random.below(4) == 0 {
        history.extend([Event::Timeout, Event::Bytes(random_end(random))]);
    }
    history
}

/// Mostly a timeout: a restart ends any load, and few would come to their end.
fn random_event(random: &mut Random) -> Event {
    match random.below(4) {
        0 => Event::Restart,
        _ => Event::Timeout,
    }
}

/// A place up to there, or the end where that is before it: any, or the next one
/// that is right behind a byte which is no plain data, or one further, which among
/// check bytes is the last place left.
fn random_place(random: &mut Random, bytes: &[u8], most: usize) -> usize {
    let start = random.below(most + 1).min(bytes.len());
    let telling = |byte: &u8| [DC3, SYN, ETB].contains(byte);
    match (random.below(2), bytes[start..].iter().position(telling)) {
        (0, Some(after)) => (start + after + 1 + random.below(2)).min(bytes.len()),
        _ => start,
    }
}

/// The script of a history in that cut.
pub fn script_of(random: &mut Random, history: &[Event], cut: Cut) -> Vec<u8> {
    let mut calls = Calls::default();
    for event in history {
        match (event, cut) {
            (Event::Timeout, _) => calls.timeout(),
            (Event::Restart, _) => calls.restart(),
            (Event::Bytes(bytes), Cut::Into(size)) => {
                bytes.chunks(size).for_each(|piece| calls.piece(piece));
            }
            (Event::Bytes(bytes), Cut::Random) => {
                let pieces = random_pieces(random, bytes);
                pieces.iter().for_each(|piece| calls.piece(piece));
            }
        }
    }
    calls.script
}

/// The bytes in pieces, as `Cut::Random` has them.
pub fn random_pieces<'a>(random: &mut Random, mut rest: &'a [u8]) -> Vec<&'a [u8]> {
    let mut pieces = Vec::new();
    let mut most = random.pick(&MOST);
    while !rest.is_empty() {
        if random.below(16) == 0 {
            pieces.push(&[][..]);
            most = random.pick(&MOST);
        }
        let length = (1 + random.below(most)).min(rest.len());
        let (piece, after) = rest.split_at(length);
        pieces.push(piece);
        rest = after;
    }
    pieces
}

/// The script with something behind it that is no call, or no whole one. What
/// follows must not be called.
pub fn broken(random: &mut Random, mut script: Vec<u8>) -> Vec<u8> {
    let letter = random.byte();
    let end: &[u8] = match random.below(6) {
        0 if !b"BTR".contains(&letter) => &[letter, b'R', b'T'],
        0 | 1 => b"rR",
        2 => b"B",
        3 => b"B\0",
        4 => b"B\0\x03\x18\x18",
        _ => b"B\xFF\xFFBTR\0\0\0",
    };
    script.extend(end);
    script
}
