//! The scope paper, section Sample line traffic, byte by byte.

use super::{load, Line, A};
use second::material::table::record_of;
use second::packet::framed;

/// All that is replied to these bytes.
fn reply(bytes: &[u8]) -> Vec<u8> {
    Line::fresh().replies(bytes).concat()
}

#[test]
fn opn() {
    assert_eq!(
        reply(&[0x16, 0x4F, 0x50, 0x4E, 0x17, 0xA8, 0xA9]),
        [0x06, 0x16, 0x4F, 0x50, 0x4E, 0x30, 0x30, 0x30, 0x17, 0x77, 0x5E]
    );
}

/// With its right check it is a payload of one byte, so no command.
#[test]
fn payload_16h() {
    assert_eq!(reply(&[0x16, 0x13, 0x36, 0x17, 0xCB, 0x04]), [0x15]);
    let response = [&[0x06], &framed(b"ERR010")[..]].concat();
    assert_eq!(reply(&[0x16, 0x13, 0x36, 0x17, 0xCB, 0x03]), response);
}

#[test]
fn idle_18h() {
    assert_eq!(reply(&[0x18]), [0x04]);
    assert_eq!(reply(&[0x18, 0x18]), [0x04, 0x04]);
}

#[test]
fn payloads_of_2048_and_2049_bytes() {
    let response = [&[0x06], &framed(b"ERR010")[..]].concat();
    for byte in [0x00, 0x13, 0x16, 0x17, 0x18, b'x', 0xFF] {
        assert_eq!(reply(&framed(&[byte; 2048])), response, "{byte:02X}");
        assert_eq!(reply(&framed(&[byte; 2049])), [0x15], "{byte:02X}");
        assert_eq!(reply(&framed(&[byte; 5000])), [0x15], "{byte:02X}");
    }
}

#[test]
fn loads_of_512_and_513_records() {
    for (count, code) in [(512, b"TLE000"), (513, b"TLE021")] {
        let numbers = 0..count;
        let records: Vec<Vec<u8>> = numbers.map(|one| record_of(b'1', 7, one, 8)).collect();
        let mut line = Line::fresh();
        load(&mut line, 0, &A, &records, code);
        let live = match code {
            b"TLE000" => records.concat(),
            _ => Vec::new(),
        };
        super::assert_store(&line.live, &live);
    }
}

/// A whole load, and commands that are refused: what goes over the line, byte by
/// byte. The checks were taken one bit at a time by neither program; one has 13h
/// in it.
#[test]
fn a_load_byte_by_byte() {
    let mut line = Line::fresh();
    for (sent, replied) in [
        (
            &b"\x16GTS00200\x17\x58\x6B"[..],
            &b"\x06\x16GTS0000100000000000\x17\x79\x46"[..],
        ),
        (b"\x16TLE\x17\x47\xE9", b"\x06\x16TLE010\x17\xC1\xA2"),
        (
            b"\x16TLR01201010107AZab\x17\xA3\xC7",
            b"\x06\x16TLR010\x17\xA2\x2C",
        ),
        (
            b"\x16TLI01207TABVER0008\x17\xA8\x40",
            b"\x06\x16TLI020\x17\x13\xD9",
        ),
        (
            b"\x16TLR01201010107AZab\x17\xA3\xC7",
            b"\x06\x16TLR000\x17\x95\x1C",
        ),
        (b"\x15", b"\x16TLR000\x17\x95\x1C"),
        (b"\x16TLE\x17\x47\xE9", b"\x06\x16TLE000\x17\xF6\x92"),
        (
            b"\x16GTS00207\x17\xC1\xFC",
            b"\x06\x16GTS000010TABVER0008\x17\xB6\x92",
        ),
        (b"\x16TLE\x17\x47\xE8", b"\x15"),
    ] {
        assert_eq!(line.replies(sent), [replied.to_vec()], "{sent:?}");
    }
}
