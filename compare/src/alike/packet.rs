//! The packet calls.

use super::assert_alike;
use crate::proved;
use second::script::shown;
use second::{by_hand, check, packet};

/// Writes the packet of a payload.
pub fn write(payload: &[u8], room: usize) {
    let line = || format!("W {room} {}", shown(payload));
    assert_alike(line, room, packet::write(payload), |out| {
        proved::packet::write(payload, out)
    });
}

/// Reads a packet.
pub fn read(bytes: &[u8], room: usize) {
    let line = || format!("R {room} {}", shown(bytes));
    assert_alike(line, room, packet::read(bytes), |out| {
        proved::packet::read(bytes, out)
    });
}

/// Writes and reads back, each with exactly the room it needs.
pub fn there_and_back(payload: &[u8]) {
    let packet = packet::framed(payload);
    write(payload, packet.len());
    read(&packet, payload.len());
}

/// Takes the check of a payload, here against both of the second program's
/// ways.
pub fn check_of(payload: &[u8]) {
    let got = proved::packet::check_of(payload);
    let by_hand = by_hand::packet::check_of(payload);
    let input = shown(payload);
    assert_eq!(got, check::check_of(payload), "check of {input}");
    assert_eq!(got, by_hand, "check of {input}");
}
