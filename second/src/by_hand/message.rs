//! The message reader and the message writer: a first walk judges and measures,
//! a second one writes, since a refusal must leave the buffer as it was.

use crate::answer::{Answer, TOO_LITTLE_ROOM};
use crate::message::{head_length, DATA_OVER, HEAD_OR_BLOCK_WRONG, MESSAGE_OVER};
use crate::message::{DIGITS, LARGEST, LARGEST_BLOCK, LARGEST_DATA};
use crate::packet::PAYLOAD_OVER;
use crate::parameter::PAST_THE_END;

/// A parameter's number and length.
const HEADER: usize = 4;

/// As `message::read` given to a lent buffer.
pub fn read(message: &[u8], response: bool, out: &mut [u8]) -> Answer {
    if message.len() > LARGEST {
        return (PAYLOAD_OVER, 0);
    }
    let start = head_length(response);
    if message.len() < start || !head_is_right(&message[..start], response) {
        return (HEAD_OR_BLOCK_WRONG, 0);
    }
    let mut place = start;
    let mut length = 0;
    let mut sound = true;
    while place < message.len() {
        let block = block_length(message, place);
        if block == 0 {
            return (HEAD_OR_BLOCK_WRONG, 0);
        }
        place += DIGITS;
        sound = sound && is_list(&message[place..place + block]);
        place += block;
        length += block;
    }
    if !sound {
        return (PAST_THE_END, 0);
    }
    if length > out.len() {
        return (TOO_LITTLE_ROOM, 0);
    }
    join(message, start, out);
    (0, length)
}

/// As `message::write` given to a lent buffer.
pub fn write(head: &[u8], response: bool, list: &[u8], out: &mut [u8]) -> Answer {
    if !head_is_right(head, response) {
        return (HEAD_OR_BLOCK_WRONG, 0);
    }
    let length = match length_of_blocks(list) {
        Ok(length) => head.len() + length,
        Err(refusal) => return (refusal, 0),
    };
    if length > LARGEST {
        return (MESSAGE_OVER, 0);
    }
    if length > out.len() {
        return (TOO_LITTLE_ROOM, 0);
    }
    out[..head.len()].copy_from_slice(head);
    fill_blocks(list, &mut out[head.len()..]);
    (0, length)
}

fn head_is_right(head: &[u8], response: bool) -> bool {
    if head.len() != head_length(response) {
        return false;
    }
    for (place, byte) in head.iter().enumerate() {
        let right = match place {
            0..3 => byte.is_ascii_uppercase(),
            _ => byte.is_ascii_digit(),
        };
        if !right {
            return false;
        }
    }
    true
}

/// The length of the block at that place, 0 where no whole block stands there.
fn block_length(message: &[u8], place: usize) -> usize {
    if message.len() - place < DIGITS {
        return 0;
    }
    let mut length = 0;
    for digit in &message[place..place + DIGITS] {
        if !digit.is_ascii_digit() {
            return 0;
        }
        length = length * 10 + usize::from(digit - b'0');
    }
    if length > message.len() - place - DIGITS {
        return 0;
    }
    length
}

fn join(message: &[u8], start: usize, out: &mut [u8]) {
    let mut from = start;
    let mut to = 0;
    while from < message.len() {
        let block = block_length(message, from);
        from += DIGITS;
        out[to..to + block].copy_from_slice(&message[from..from + block]);
        from += block;
        to += block;
    }
}

/// The length of the data of the parameter whose header stands at that place.
fn data_length(list: &[u8], place: usize) -> usize {
    usize::from(u16::from_be_bytes([list[place + 2], list[place + 3]]))
}

fn is_list(list: &[u8]) -> bool {
    let mut place = 0;
    while place < list.len() {
        if list.len() - place < HEADER {
            return false;
        }
        let data = data_length(list, place);
        if data > list.len() - place - HEADER {
            return false;
        }
        place += HEADER + data;
    }
    true
}

/// The length of the blocks that the list will fill, their digits included. Data
/// over 995 is told at the end: a list that breaks off behind it goes first.
fn length_of_blocks(list: &[u8]) -> Result<usize, u8> {
    let mut place = 0;
    let mut length = 0;
    let mut block = LARGEST_BLOCK;
    let mut over = false;
    while place < list.len() {
        if list.len() - place < HEADER {
            return Err(PAST_THE_END);
        }
        let data = data_length(list, place);
        if data > list.len() - place - HEADER {
            return Err(PAST_THE_END);
        }
        over = over || data > LARGEST_DATA;
        let parameter = HEADER + data;
        if block + parameter > LARGEST_BLOCK {
            length += DIGITS;
            block = 0;
        }
        block += parameter;
        length += parameter;
        place += parameter;
    }
    if over {
        return Err(DATA_OVER);
    }
    Ok(length)
}

/// Writes block after block; a block's length goes before it once it is known.
fn fill_blocks(list: &[u8], out: &mut [u8]) {
    let mut from = 0;
    let mut to = 0;
    while from < list.len() {
        let mut end = from;
        while end < list.len() {
            let parameter = HEADER + data_length(list, end);
            if end - from + parameter > LARGEST_BLOCK {
                break;
            }
            end += parameter;
        }
        let block = end - from;
        put_digits(block, &mut out[to..to + DIGITS]);
        to += DIGITS;
        out[to..to + block].copy_from_slice(&list[from..end]);
        to += block;
        from = end;
    }
}

fn put_digits(length: usize, out: &mut [u8]) {
    for (place, unit) in out.iter_mut().zip([100, 10, 1]) {
        *place = b'0' + (length / unit % 10) as u8;
    }
}
