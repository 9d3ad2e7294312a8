//! The packet writer and the packet reader.
//!
//! The scope paper, section Packet: SYN, the payload with three of its byte
//! values sent as pairs, ETB, and the check as it is, high byte first.

use crate::answer::Outcome;
use crate::check::check_of;

pub const SYN: u8 = 0x16;
pub const ETB: u8 = 0x17;
/// The documents' name for the byte that opens a pair (000 and 001, section
/// 2.2.1).
pub const DC3: u8 = 0x13;

/// The largest payload, the scope paper, section Packet. The documents allow
/// one byte more; for sizes the paper decides.
pub const LARGEST_PAYLOAD: usize = 2048;

// The scope paper, section Numbered refusals of calls.
pub const PAYLOAD_EMPTY: u8 = 10;
pub const PAYLOAD_OVER: u8 = 11;
pub const MALFORMED: u8 = 12;
pub const CHECK_DIFFERS: u8 = 13;

/// A payload byte that may not be sent raw, and the byte sent after DC3 in its
/// place.
const SUBSTITUTIONS: [(u8, u8); 3] = [(DC3, 0x33), (SYN, 0x36), (ETB, 0x37)];

/// The packet of a payload.
pub fn write(payload: &[u8]) -> Outcome {
    within_limits(payload)?;
    Ok(framed(payload))
}

/// The payload of a packet.
///
/// The order is that of the scope paper, section Numbered refusals of calls:
/// the form of all bytes, those after ETB included, is settled before the
/// payload's size, and that before the check.
pub fn read(bytes: &[u8]) -> Outcome {
    let (data, received) = parts(bytes).ok_or(MALFORMED)?;
    let payload = without_substitutions(data).ok_or(MALFORMED)?;
    within_limits(&payload)?;
    if check_of(&payload) != received {
        return Err(CHECK_DIFFERS);
    }
    Ok(payload)
}

/// SYN, data, ETB and check around any payload, even one whose size the writer
/// has to refuse: bad packets with a right check are made with it.
pub fn framed(payload: &[u8]) -> Vec<u8> {
    let mut packet = vec![SYN];
    packet.extend(with_substitutions(payload));
    packet.push(ETB);
    packet.extend(check_of(payload).to_be_bytes());
    packet
}

fn within_limits(payload: &[u8]) -> Result<(), u8> {
    match payload.len() {
        0 => Err(PAYLOAD_EMPTY),
        1..=LARGEST_PAYLOAD => Ok(()),
        _ => Err(PAYLOAD_OVER),
    }
}

/// The bytes between SYN and the first raw ETB, and the check received. None
/// where SYN or ETB is missing or where the rest is not the check's two bytes.
///
/// What stands before ETB does not matter for finding it: behind DC3 it still
/// ends the data, and leaves an unfinished pair there.
pub(crate) fn parts(bytes: &[u8]) -> Option<(&[u8], u16)> {
    let after_syn = bytes.strip_prefix(&[SYN])?;
    let end = after_syn.iter().position(|&byte| byte == ETB)?;
    let check = after_syn[end + 1..].try_into().ok()?;
    Some((&after_syn[..end], u16::from_be_bytes(check)))
}

fn with_substitutions(payload: &[u8]) -> Vec<u8> {
    let mut data = Vec::with_capacity(payload.len());
    for &byte in payload {
        match SUBSTITUTIONS.iter().find(|(raw, _)| *raw == byte) {
            Some(&(_, sent)) => data.extend([DC3, sent]),
            None => data.push(byte),
        }
    }
    data
}

/// None where the data holds a raw SYN or a DC3 that opens no pair of the
/// table.
fn without_substitutions(data: &[u8]) -> Option<Vec<u8>> {
    let mut payload = Vec::with_capacity(data.len());
    let mut bytes = data.iter();
    while let Some(&byte) = bytes.next() {
        payload.push(match byte {
            SYN => return None,
            DC3 => {
                let second = bytes.next()?;
                SUBSTITUTIONS.iter().find(|(_, sent)| sent == second)?.0
            }
            plain => plain,
        });
    }
    Some(payload)
}

#[cfg(test)]
mod tests {
    use super::{framed, read, write};

    const OPN: [u8; 7] = [0x16, 0x4F, 0x50, 0x4E, 0x17, 0xA8, 0xA9];

    /// The scope paper, section Sample line traffic.
    #[test]
    fn the_papers_samples() {
        assert_eq!(write(b"OPN"), Ok(OPN.to_vec()));
        assert_eq!(read(&OPN), Ok(b"OPN".to_vec()));
        let packet = [0x16, 0x13, 0x36, 0x17, 0xCB, 0x03];
        assert_eq!(write(&[0x16]), Ok(packet.to_vec()));
        assert_eq!(read(&packet), Ok(vec![0x16]));
        assert_eq!(read(&[0x16, 0x13, 0x36, 0x17, 0xCB, 0x04]), Err(13));
    }

    #[test]
    fn the_sizes_at_the_limits() {
        assert_eq!(write(&[]), Err(10));
        assert_eq!(read(&framed(&[])), Err(10));
        let largest: Vec<u8> = (0..2048).map(|place| place as u8).collect();
        assert_eq!(write(&largest), Ok(framed(&largest)));
        assert_eq!(read(&framed(&largest)), Ok(largest));
        assert_eq!(write(&[0; 2049]), Err(11));
        assert_eq!(read(&framed(&[0; 2049])), Err(11));
    }

    #[test]
    fn the_size_is_that_of_the_payload_and_not_of_its_pairs() {
        let pairs = framed(&[0x13; 2048]);
        assert_eq!(pairs.len(), 1 + 2 * 2048 + 3);
        assert_eq!(read(&pairs), Ok(vec![0x13; 2048]));
    }

    #[test]
    fn no_cut_packet_is_well_formed() {
        for length in 0..OPN.len() {
            assert_eq!(read(&OPN[..length]), Err(12), "cut to {length}");
        }
    }

    #[test]
    fn syn_stands_at_the_start_and_nowhere_else() {
        assert_eq!(read(&[0x15, 0x4F, 0x50, 0x4E, 0x17, 0xA8, 0xA9]), Err(12));
        assert_eq!(read(&OPN[1..]), Err(12));
        for place in 1..5 {
            let mut packet = OPN.to_vec();
            packet.insert(place, 0x16);
            assert_eq!(read(&packet), Err(12), "SYN at {place}");
        }
    }

    #[test]
    fn the_first_raw_etb_ends_the_data() {
        assert_eq!(read(&[0x16, 0x4F, 0x17, 0x50, 0x4E, 0x17, 0xA8]), Err(12));
        assert_eq!(read(&[0x16, 0x4F, 0x17, 0x17, 0x17]), Err(13));
    }

    #[test]
    fn bad_pairs() {
        for second in (0..=255).filter(|byte| ![0x33, 0x36, 0x37].contains(byte)) {
            let packet = [0x16, 0x4F, 0x13, second, 0x17, 0, 0];
            assert_eq!(read(&packet), Err(12), "pair 13h {second:02X}h");
        }
        assert_eq!(read(&[0x16, 0x4F, 0x13, 0x17, 0, 0]), Err(12));
        assert_eq!(read(&[0x16, 0x4F, 0x13]), Err(12));
    }

    #[test]
    fn a_check_byte_may_have_any_value() {
        for check in 0..=0xFFFF_u16 {
            let [high, low] = check.to_be_bytes();
            let expected = match check {
                0xA8A9 => Ok(b"OPN".to_vec()),
                _ => Err(13),
            };
            assert_eq!(read(&[0x16, 0x4F, 0x50, 0x4E, 0x17, high, low]), expected);
        }
    }

    #[test]
    fn the_order_of_refusals() {
        assert_eq!(read(&[0x16, 0x17, 0, 0, 0]), Err(12));
        assert_eq!(read(&[0x16, 0x17, 0, 0]), Err(10));
        let mut over = framed(&[0; 2049]);
        *over.last_mut().expect("a packet has a last byte") ^= 1;
        assert_eq!(read(&over), Err(11));
        over.push(0);
        assert_eq!(read(&over), Err(12));
    }
}
