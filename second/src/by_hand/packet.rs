//! The packet calls, and the check one bit at a time.

use crate::answer::{Answer, TOO_LITTLE_ROOM};
use crate::packet::{self, CHECK_DIFFERS, DC3, ETB, LARGEST_PAYLOAD, MALFORMED, SYN};
use crate::packet::{PAYLOAD_EMPTY, PAYLOAD_OVER};

/// What lies between a payload byte and the second byte of its pair: 13h goes
/// as 33h, 16h as 36h, 17h as 37h (the scope paper, section Packet).
const PAIR_STEP: u8 = 0x20;

/// SYN, ETB and the two check bytes.
const FRAME: usize = 4;

fn shift_in(mut register: u16, byte: u8) -> u16 {
    register ^= u16::from(byte) << 8;
    for _ in 0..8 {
        let carry = register & 0x8000 != 0;
        register <<= 1;
        if carry {
            register ^= 0x1021;
        }
    }
    register
}

/// As `check::without_etb`.
pub fn without_etb(bytes: &[u8]) -> u16 {
    bytes
        .iter()
        .fold(0, |register, &byte| shift_in(register, byte))
}

/// As `check::check_of`.
pub fn check_of(payload: &[u8]) -> u16 {
    shift_in(without_etb(payload), ETB)
}

fn needs_pair(byte: u8) -> bool {
    matches!(byte, DC3 | SYN | ETB)
}

/// As `packet::write` given to a lent buffer. The packet's length is counted
/// first, since too little room must leave the buffer as it was.
pub fn write(payload: &[u8], out: &mut [u8]) -> Answer {
    if payload.is_empty() {
        return (PAYLOAD_EMPTY, 0);
    }
    if payload.len() > LARGEST_PAYLOAD {
        return (PAYLOAD_OVER, 0);
    }
    let pairs = payload.iter().filter(|&&byte| needs_pair(byte)).count();
    let length = payload.len() + pairs + FRAME;
    let Some(out) = out.get_mut(..length) else {
        return (TOO_LITTLE_ROOM, 0);
    };
    out[0] = SYN;
    let mut place = 1;
    let mut register = 0;
    for &byte in payload {
        register = shift_in(register, byte);
        if needs_pair(byte) {
            out[place] = DC3;
            out[place + 1] = byte + PAIR_STEP;
            place += 2;
        } else {
            out[place] = byte;
            place += 1;
        }
    }
    out[place] = ETB;
    out[place + 1..].copy_from_slice(&shift_in(register, ETB).to_be_bytes());
    (0, length)
}

/// As `packet::read` given to a lent buffer: a first walk judges the data and
/// changes nothing, a second one writes the payload.
pub fn read(bytes: &[u8], out: &mut [u8]) -> Answer {
    let Some((data, received)) = packet::parts(bytes) else {
        return (MALFORMED, 0);
    };
    let Some((length, check)) = length_and_check(data) else {
        return (MALFORMED, 0);
    };
    if length == 0 {
        return (PAYLOAD_EMPTY, 0);
    }
    if length > LARGEST_PAYLOAD {
        return (PAYLOAD_OVER, 0);
    }
    if check != received {
        return (CHECK_DIFFERS, 0);
    }
    let Some(out) = out.get_mut(..length) else {
        return (TOO_LITTLE_ROOM, 0);
    };
    let mut from = 0;
    for place in out {
        if data[from] == DC3 {
            *place = data[from + 1] - PAIR_STEP;
            from += 2;
        } else {
            *place = data[from];
            from += 1;
        }
    }
    (0, length)
}

/// The payload's length and check, or None where the data is malformed.
fn length_and_check(data: &[u8]) -> Option<(usize, u16)> {
    let mut bytes = data.iter();
    let mut length = 0;
    let mut register = 0;
    while let Some(&byte) = bytes.next() {
        let raw = match byte {
            SYN => return None,
            DC3 => match *bytes.next()? {
                second @ (0x33 | 0x36 | 0x37) => second - PAIR_STEP,
                _ => return None,
            },
            plain => plain,
        };
        register = shift_in(register, raw);
        length += 1;
    }
    Some((length, shift_in(register, ETB)))
}
