//! The line: what each byte is to the device, in every reception state.

use super::Calls;
use crate::check::check_of;
use crate::device::{CAN, NAK};
use crate::packet::{framed, DC3, ETB, LARGEST_PAYLOAD, SYN};
use crate::stored::counting;

const OPN: &[u8] = b"OPN";

/// Checks made of bytes that have a meaning elsewhere.
const CHECKS: [u16; 8] = [
    0x1617, 0x1716, 0x1316, 0x1713, 0x1518, 0x1815, 0x0604, 0x0000,
];

pub fn cases(calls: &mut Calls) {
    idle(calls);
    pieces(calls);
    calls.send(OPN);
    idle(calls);
    control_bytes_in_data(calls);
    pairs(calls);
    frames(calls);
    checks(calls);
    sizes(calls);
    damage(calls);
    resends(calls);
}

/// Every byte that starts no packet, by itself and all in one piece.
fn idle(calls: &mut Calls) {
    let bytes: Vec<u8> = (0..=255).filter(|&byte| byte != SYN).collect();
    bytes.chunks(1).for_each(|byte| calls.piece(byte));
    calls.piece(&bytes);
}

/// OPN in every cut into two, byte by byte with empty pieces between, and several
/// times in one piece.
fn pieces(calls: &mut Calls) {
    let opn = framed(OPN);
    for place in 0..=opn.len() {
        calls.piece(&opn[..place]);
        calls.piece(&opn[place..]);
    }
    for byte in opn.chunks(1) {
        calls.piece(byte);
        calls.piece(&[]);
    }
    let between = [&opn[..], &[NAK, 0x00, CAN, NAK], &opn, &opn[..3]].concat();
    calls.piece(&between);
    calls.piece(&opn[3..]);
}

fn control_bytes_in_data(calls: &mut Calls) {
    calls.send(&[CAN, NAK, 0x06, 0x04]);
    calls.send(&[NAK]);
    calls.send(&[CAN]);
}

/// Every byte behind 13h, in a packet whose check is that of the payload with
/// what the pair would stand for, or without both where it is no pair.
fn pairs(calls: &mut Calls) {
    for byte in 0..=255 {
        let payload: &[u8] = match byte {
            0x33 | 0x36 | 0x37 => &[b'O', byte - 0x20, b'P', b'N'],
            _ => OPN,
        };
        let [high, low] = check_of(payload).to_be_bytes();
        calls.piece(&[SYN, b'O', DC3, byte, b'P', b'N', ETB, high, low]);
    }
    calls.send(&[DC3, SYN, ETB, 0x33, 0x36, 0x37, DC3]);
    calls.piece(&[SYN, DC3, DC3, DC3, 0x33, ETB, 0x00, 0x00]);
}

/// SYN and ETB at every place of a packet, also after 13h, and packets of
/// nothing.
fn frames(calls: &mut Calls) {
    let opn = framed(OPN);
    for odd in [&[SYN][..], &[ETB], &[DC3, SYN], &[DC3, ETB]] {
        for place in 0..=opn.len() {
            let (before, after) = opn.split_at(place);
            calls.piece(&[before, odd, after].concat());
        }
    }
    calls.send(&[]);
    calls.piece(&[SYN, ETB, 0x00, 0x00]);
    calls.piece(&[&[SYN, DC3, 0x00][..], &opn].concat());
}

fn checks(calls: &mut Calls) {
    for check in CHECKS {
        let mut payloads = (0..=0xFFFF_u16).map(u16::to_be_bytes);
        let payload = payloads.find(|payload| check_of(payload) == check);
        let packet = framed(&payload.expect("two bytes give every check"));
        calls.piece(&packet);
        calls.piece(&packet[..packet.len() - 1]);
        calls.piece(&[packet[packet.len() - 1] ^ 0x80]);
    }
}

/// Payloads of the largest size and one byte more. The check of the last is that
/// of the bytes that still have a place.
fn sizes(calls: &mut Calls) {
    let over = counting(LARGEST_PAYLOAD + 1);
    let most = &over[..LARGEST_PAYLOAD];
    calls.send(most);
    calls.send(&over);
    calls.send(&[DC3; LARGEST_PAYLOAD]);
    let packet = framed(&over);
    let check = check_of(most).to_be_bytes();
    calls.piece(&[&packet[..packet.len() - 2], &check].concat());
}

/// A packet with each bit changed and each byte missing or twice, and cut off at
/// each place before a timeout.
fn damage(calls: &mut Calls) {
    let packet = framed(b"GTS00207");
    for bit in 0..packet.len() * 8 {
        let mut damaged = packet.clone();
        damaged[bit / 8] ^= 0x80 >> (bit % 8);
        calls.piece(&damaged);
    }
    for place in 0..packet.len() {
        let (before, after) = packet.split_at(place);
        calls.piece(&[before, &after[1..]].concat());
        calls.piece(&[before, &after[..1], after].concat());
        calls.piece(before);
        calls.timeout();
        calls.piece(after);
        calls.timeout();
    }
    calls.piece(&packet);
}

/// A response more often than it is sent again, in one piece and in several, with
/// what leaves the count and what does not between them.
fn resends(calls: &mut Calls) {
    let bad = [SYN, b'x', ETB, NAK, CAN];
    calls.restart();
    calls.piece(&[NAK, NAK]);
    calls.send(OPN);
    calls.piece(&[NAK; 6]);
    calls.send(b"GTS");
    calls.piece(&[NAK]);
    calls.piece(&bad);
    calls.piece(&[NAK]);
    calls.timeout();
    calls.piece(&[NAK, NAK]);
    calls.send(OPN);
    calls.piece(&[NAK, CAN, NAK, CAN]);
    calls.send(OPN);
    calls.restart();
    calls.piece(&[NAK]);
}
