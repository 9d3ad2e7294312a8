//! Messages: a head, and blocks of whole parameters.
//!
//! The scope paper, section Blocks and parameters: the head is three name bytes
//! and, in a response, three status digits; a block is its length in three
//! digits and that many bytes.

use crate::answer::Outcome;
use crate::packet::{LARGEST_PAYLOAD, PAYLOAD_OVER};
use crate::parameter::{self, Parameter};
use crate::{digits, pieces};

/// A message is a packet's payload, so one limit is both (the scope paper,
/// section Packet).
pub const LARGEST: usize = LARGEST_PAYLOAD;
pub const LARGEST_BLOCK: usize = 999;
/// What a block has room for beside one parameter's header.
pub const LARGEST_DATA: usize = 995;

// The scope paper, section Numbered refusals of calls. The reader's refusal of
// an over-long message is the packet's, the writer's is its own.
pub const HEAD_OR_BLOCK_WRONG: u8 = 20;
pub const DATA_OVER: u8 = 22;
pub const MESSAGE_OVER: u8 = 23;
pub const NO_SUCH_PARAMETER: u8 = 24;

/// The digits of a block's length.
pub const DIGITS: usize = 3;

/// The parameter list of a message: what its blocks hold, joined.
///
/// The order is that of the scope paper, section Numbered refusals of calls: the
/// size, then the head and the form of every block, then what the blocks hold.
pub fn read(message: &[u8], response: bool) -> Outcome {
    if message.len() > LARGEST {
        return Err(PAYLOAD_OVER);
    }
    let (head, rest) = message
        .split_at_checked(head_length(response))
        .ok_or(HEAD_OR_BLOCK_WRONG)?;
    judge_head(head, response)?;
    let blocks = pieces::all(rest, |rest| first_block(rest).ok_or(HEAD_OR_BLOCK_WRONG))?;
    for block in &blocks {
        parameter::list(block)?;
    }
    Ok(blocks.concat())
}

/// The message of a head and a parameter list. A list without parameters gives
/// a message without blocks.
pub fn write(head: &[u8], response: bool, list: &[u8]) -> Outcome {
    judge_head(head, response)?;
    let parameters = parameter::list(list)?;
    if parameters.iter().any(|one| one.data.len() > LARGEST_DATA) {
        return Err(DATA_OVER);
    }
    let message = framed(head, &filled(&parameters));
    match message.len() {
        0..=LARGEST => Ok(message),
        _ => Err(MESSAGE_OVER),
    }
}

/// The data of the nth parameter of that number, the first being number 1. The
/// whole list must be sound, what follows the one asked for included.
pub fn find(list: &[u8], number: u16, n: usize) -> Outcome {
    let parameters = parameter::list(list)?;
    let mut alike = parameters.iter().filter(|one| one.number == number);
    let found = n.checked_sub(1).and_then(|before| alike.nth(before));
    found
        .map(|parameter| parameter.data.to_vec())
        .ok_or(NO_SUCH_PARAMETER)
}

/// A head and blocks in a row, whatever they hold: bad messages are made with
/// it too. A block over 999 bytes gets a length of more than three digits.
pub fn framed(head: &[u8], blocks: &[Vec<u8>]) -> Vec<u8> {
    let mut message = head.to_vec();
    for block in blocks {
        message.extend(format!("{:03}", block.len()).bytes());
        message.extend(block);
    }
    message
}

/// Three name bytes, and in a response the status.
pub fn head_length(response: bool) -> usize {
    match response {
        true => 6,
        false => 3,
    }
}

/// Any three digits are a status: which there are is for the commands.
fn judge_head(head: &[u8], response: bool) -> Result<(), u8> {
    let right = head.len() == head_length(response)
        && head.iter().take(3).all(u8::is_ascii_uppercase)
        && head.iter().skip(3).all(u8::is_ascii_digit);
    match right {
        true => Ok(()),
        false => Err(HEAD_OR_BLOCK_WRONG),
    }
}

/// What the block at the start holds, and what follows the block.
fn first_block(bytes: &[u8]) -> Option<(&[u8], &[u8])> {
    let (length, after) = bytes.split_at_checked(DIGITS)?;
    match digits::number(length)? {
        0 => None,
        length => after.split_at_checked(length),
    }
}

/// The blocks as the writer fills them: each parameter goes to the last block
/// if that has the room, else to a new one.
fn filled(parameters: &[Parameter]) -> Vec<Vec<u8>> {
    let mut blocks: Vec<Vec<u8>> = Vec::new();
    for Parameter { whole, .. } in parameters {
        match blocks.last_mut() {
            Some(block) if block.len() + whole.len() <= LARGEST_BLOCK => block.extend(*whole),
            _ => blocks.push(whole.to_vec()),
        }
    }
    blocks
}

#[cfg(test)]
mod tests {
    use super::{find, framed, read, write};

    /// The scope paper's sample of a command, 001, section 3.3.1.
    const CEX: &[u8] = b"CEX010\x00\x06\x00\x06010000";
    /// Its sample of a response, 000, section 3.3.13.
    const MNU: &[u8] = b"MNU000006\x80\x4D\x00\x0202";

    /// A parameter of number 1.
    fn of_length(length: u16) -> Vec<u8> {
        let data = vec![b'x'; usize::from(length)];
        [&[0, 1], &length.to_be_bytes()[..], &data].concat()
    }

    fn of_lengths(lengths: &[u16]) -> Vec<u8> {
        lengths.iter().copied().flat_map(of_length).collect()
    }

    #[test]
    fn the_papers_samples() {
        assert_eq!(read(CEX, false), Ok(CEX[6..].to_vec()));
        assert_eq!(find(&CEX[6..], 0x0006, 1), Ok(b"010000".to_vec()));
        assert_eq!(write(b"CEX", false, &CEX[6..]), Ok(CEX.to_vec()));
        assert_eq!(read(MNU, true), Ok(MNU[9..].to_vec()));
        assert_eq!(find(&MNU[9..], 0x804D, 1), Ok(b"02".to_vec()));
        assert_eq!(write(b"MNU000", true, &MNU[9..]), Ok(MNU.to_vec()));
    }

    #[test]
    fn a_parameter_of_995_fits_a_block_and_996_is_refused() {
        let most = of_length(995);
        let message = framed(b"CEX", std::slice::from_ref(&most));
        assert!(message.starts_with(b"CEX999\x00\x01\x03\xE3x"));
        assert_eq!(write(b"CEX", false, &most), Ok(message.clone()));
        assert_eq!(read(&message, false), Ok(most));
        assert_eq!(write(b"CEX", false, &of_length(996)), Err(22));
    }

    #[test]
    fn no_parameter_is_no_block() {
        assert_eq!(write(b"OPN", false, &[]), Ok(b"OPN".to_vec()));
        assert_eq!(read(b"OPN", false), Ok(vec![]));
        assert_eq!(write(b"OPN000", true, &[]), Ok(b"OPN000".to_vec()));
        assert_eq!(read(b"OPN000", true), Ok(vec![]));
    }

    /// The caller says which of the two a message is; read as the other one, it
    /// has a status or a length too many.
    #[test]
    fn commands_and_responses_are_not_told_apart_by_their_bytes() {
        assert_eq!(read(b"OPN000", false), Err(20));
        assert_eq!(read(b"OPN", true), Err(20));
        assert_eq!(read(b"OPN004\x00\x01\x00\x00", true), Err(20));
        assert_eq!(write(b"OPN", true, &[]), Err(20));
        assert_eq!(write(b"OPN000", false, &[]), Err(20));
    }

    #[test]
    fn every_byte_in_every_place_of_a_head() {
        for (place, byte) in (0..6).flat_map(|place| (0..=255).map(move |byte| (place, byte))) {
            let mut head = *b"OPN000";
            head[place] = byte;
            let right = match place {
                0..=2 => (0x41..=0x5A).contains(&byte),
                _ => (0x30..=0x39).contains(&byte),
            };
            let refusal = (!right).then_some(20);
            assert_eq!(read(&head, true).err(), refusal, "{head:?}");
            assert_eq!(write(&head, true, &[]).err(), refusal, "{head:?}");
            if place < 3 {
                assert_eq!(read(&head[..3], false).err(), refusal, "{head:?}");
                assert_eq!(write(&head[..3], false, &[]).err(), refusal, "{head:?}");
            }
        }
    }

    #[test]
    fn heads_of_other_lengths() {
        let long = b"OPNOPN000000";
        for length in 0..long.len() {
            let head = &long[..length];
            assert_eq!(write(head, false, &[]).is_ok(), length == 3);
            assert!(length == 3 || write(head, false, &[]) == Err(20));
            assert_eq!(write(head, true, &[]), Err(20));
        }
        for length in 0..6 {
            assert_eq!(read(&b"OPN000"[..length], true), Err(20), "{length}");
        }
        for length in 0..3 {
            assert_eq!(read(&b"OPN"[..length], false), Err(20), "{length}");
        }
    }

    #[test]
    fn a_status_other_than_000_may_have_blocks() {
        let message = b"MNU999006\x80\x4D\x00\x0202";
        assert_eq!(read(message, true), Ok(MNU[9..].to_vec()));
        assert_eq!(write(b"MNU999", true, &MNU[9..]), Ok(message.to_vec()));
    }

    #[test]
    fn bad_block_lengths() {
        for digits in [
            "000", "001", "003", "005", "+04", " 04", "4  ", "0x4", "04A",
        ] {
            let message = [b"CEX", digits.as_bytes(), &[0, 1, 0, 0]].concat();
            assert_eq!(read(&message, false), Err(20), "{digits}");
        }
        assert_eq!(read(b"CEX004\x00\x01\x00\x00", false), Ok(vec![0, 1, 0, 0]));
        assert_eq!(read(b"CEX004\x00\x01\x00\x00000", false), Err(20));
        assert_eq!(read(b"CEX004\x00\x01\x00\x00\x00", false), Err(20));
        assert_eq!(read(b"CEX000", false), Err(20));
    }

    #[test]
    fn every_byte_in_every_place_of_a_blocks_length() {
        for (place, byte) in (0..3).flat_map(|place| (0..=255).map(move |byte| (place, byte))) {
            let mut message = b"CEX004\x00\x01\x00\x00".to_vec();
            message[3 + place] = byte;
            let right = byte == b"004"[place];
            let refusal = (!right).then_some(20);
            assert_eq!(read(&message, false).err(), refusal, "{place} {byte:02X}");
        }
    }

    #[test]
    fn a_message_that_breaks_off() {
        for length in 0..CEX.len() {
            let wanted = match length {
                3 => Ok(vec![]),
                _ => Err(20),
            };
            assert_eq!(read(&CEX[..length], false), wanted, "cut to {length}");
        }
    }

    #[test]
    fn blocks_are_joined() {
        let blocks = [of_lengths(&[1, 0]), of_length(2), of_lengths(&[0, 0])];
        assert_eq!(read(&framed(b"MLR", &blocks), false), Ok(blocks.concat()));
    }

    #[test]
    fn no_parameter_crosses_a_block() {
        let list = of_length(6);
        for place in 1..list.len() {
            let (left, right) = list.split_at(place);
            let message = framed(b"CEX", &[left.to_vec(), right.to_vec()]);
            assert_eq!(read(&message, false), Err(21), "split at {place}");
        }
    }

    /// The other side may fill its blocks as it likes. What it sent comes back
    /// only where it filled them as the writer does.
    #[test]
    fn the_writer_fills_a_block_before_it_opens_the_next() {
        let list = of_lengths(&[1, 2]);
        let message = framed(b"MLR", &[of_length(1), of_length(2)]);
        assert_eq!(read(&message, false), Ok(list.clone()));
        let written = framed(b"MLR", std::slice::from_ref(&list));
        assert_eq!(write(b"MLR", false, &list), Ok(written));
    }

    #[test]
    fn a_block_filled_to_999_and_one_byte_over() {
        let full = of_lengths(&[500, 491]);
        assert_eq!(full.len(), 999);
        let message = framed(b"MLR", std::slice::from_ref(&full));
        assert_eq!(write(b"MLR", false, &full), Ok(message));
        let over = framed(b"MLR", &[of_length(500), of_length(492)]);
        assert_eq!(write(b"MLR", false, &of_lengths(&[500, 492])), Ok(over));
        let next = framed(b"MLR", &[full.clone(), of_length(0)]);
        assert_eq!(write(b"MLR", false, &of_lengths(&[500, 491, 0])), Ok(next));
    }

    /// A block that was left is not gone back to, however small what follows.
    #[test]
    fn parameters_stay_in_order() {
        let list = of_lengths(&[500, 900, 3]);
        let blocks = [of_length(500), of_lengths(&[900, 3])];
        assert_eq!(write(b"MLR", false, &list), Ok(framed(b"MLR", &blocks)));
    }

    #[test]
    fn the_largest_message() {
        let list = of_lengths(&[995, 995, 34]);
        let message = framed(b"MLR", &[995, 995, 34].map(of_length));
        assert_eq!(message.len(), 2048);
        assert_eq!(write(b"MLR", false, &list), Ok(message.clone()));
        assert_eq!(read(&message, false), Ok(list));
        let over = framed(b"MLR", &[995, 995, 35].map(of_length));
        assert_eq!(read(&over, false), Err(11));
        assert_eq!(write(b"MLR", false, &of_lengths(&[995, 995, 35])), Err(23));
        let answer = of_lengths(&[995, 995, 31]);
        assert_eq!(write(b"MLR000", true, &answer).map(|m| m.len()), Ok(2048));
        let answer = of_lengths(&[995, 995, 32]);
        assert_eq!(write(b"MLR000", true, &answer), Err(23));
    }

    #[test]
    fn the_readers_order_of_refusals() {
        assert_eq!(read(&[0; 2049], false), Err(11));
        assert_eq!(read(b"CEX002\x00\x01000", false), Err(20));
        assert_eq!(read(b"CEX002\x00\x01004\x00\x01\x00\x00", false), Err(21));
        assert_eq!(read(b"cEX002\x00\x01", false), Err(20));
    }

    #[test]
    fn the_writers_order_of_refusals() {
        let cut = [of_length(996), vec![0]].concat();
        assert_eq!(write(b"cEX", false, &cut), Err(20));
        assert_eq!(write(b"CEX", false, &cut), Err(21));
        let over = of_lengths(&[995, 995, 995, 996]);
        assert_eq!(write(b"CEX", false, &over), Err(22));
        assert_eq!(write(b"CEX", false, &of_lengths(&[995; 3])), Err(23));
    }

    #[test]
    fn the_nth_of_a_number() {
        let list = [0, 7, 0, 1, b'a', 0, 8, 0, 0, 0, 7, 0, 2, b'b', b'c'];
        assert_eq!(find(&list, 7, 1), Ok(b"a".to_vec()));
        assert_eq!(find(&list, 7, 2), Ok(b"bc".to_vec()));
        assert_eq!(find(&list, 8, 1), Ok(vec![]));
        for (number, n) in [(7, 0), (7, 3), (8, 0), (8, 2), (9, 1), (7, usize::MAX)] {
            assert_eq!(find(&list, number, n), Err(24), "{number} {n}");
        }
        assert_eq!(find(&[], 7, 1), Err(24));
        assert_eq!(find(&list[..14], 7, 1), Err(21));
        assert_eq!(find(&list[..14], 9, 0), Err(21));
    }

    #[test]
    fn what_is_looked_for_need_not_fit_a_message() {
        let list = of_lengths(&[996, 65_535]);
        assert_eq!(find(&list, 1, 2), Ok(vec![b'x'; 65_535]));
    }
}
