//! The reception state and the held response, as the log ends with them.

use super::{assert_log, log, piece};

/// The line of a log that starts so.
fn line(log: &str, start: &str) -> String {
    let line = log.lines().find(|line| line.starts_with(start));
    line.expect("a line that starts so").to_string()
}

#[test]
fn in_the_middle_of_a_packet() {
    let lines = "\
B 0 4 -
reception data 0 3
held - 0
load closed
live 0 0
live-bytes -
loading-bytes -
";
    assert_log(&piece(b"\x16TLE"), lines, &[], "544C45");
}

/// The scope paper, section Reception: each of the five states, with a packet as
/// it should be and with one that is spoiled.
#[test]
fn every_reception_state() {
    for (bytes, state) in [
        (&b""[..], "reception idle 0 0"),
        (b"x\x17\x13", "reception idle 0 0"),
        (b"\x16", "reception data 0 0"),
        (b"\x16OP", "reception data 0 2"),
        (b"\x16OP\x13", "reception escape 0 2"),
        (b"\x16OP\x13\x33", "reception data 0 3"),
        (b"\x16OP\x17", "reception first 0 2"),
        (b"\x16OP\x17\xA8", "reception second-A8 0 2"),
        (b"\x16OP\x17\x0F", "reception second-0F 0 2"),
        (b"\x16OP\x17\x16", "reception second-16 0 2"),
        (b"\x16OP\x17\x00", "reception second-00 0 2"),
        (b"\x16OP\x13-", "reception data 1 2"),
        (b"\x16OP\x13\x13\x13", "reception escape 1 2"),
        (b"\x16OP\x13\x17", "reception first 1 2"),
        (b"\x16\x13\x17\xFE", "reception second-FE 1 0"),
        (b"\x16OP\x13-\x16", "reception data 0 0"),
        (b"\x16OP\x17\xA8\xA9", "reception idle 0 0"),
    ] {
        let log = log(&piece(bytes));
        assert_eq!(line(&log, "reception "), state, "{bytes:02X?}");
    }
}

/// Byte 2,049 spoils the packet and is not counted, nor has it a place.
#[test]
fn a_payload_as_long_as_can_be_and_longer() {
    let most = [&[0x16][..], &[0xA5; 2048]].concat();
    let over = [&most[..], &[0x5A]].concat();
    for (bytes, state) in [
        (&most, "reception data 0 2048"),
        (&over, "reception data 1 2048"),
    ] {
        let log = log(&piece(bytes));
        assert_eq!(line(&log, "reception "), state);
        assert!(log.ends_with(&format!("\nstore {}\n", "A5".repeat(2048))));
    }
}

/// The store keeps what no later byte replaces, of a spoiled packet too.
#[test]
fn the_store() {
    let packets = piece(b"\x16ABCDEF\x17\x00\x00\x16x\x13-y");
    let log = log(&packets);
    assert_eq!(&line(&log, "store ")[..20], "store 78794344454600");
    assert_eq!(line(&log, "store ").len(), 6 + 4096);
}

/// How often it was sent again, at most three times; a bad packet and a timeout
/// leave the number, and CAN forgets the response.
#[test]
fn how_often_the_response_was_sent_again() {
    let opn = b"\x16OPN\x17\xA8\xA9";
    for (bytes, held) in [
        (&b""[..], "held 164F504E30303017775E 0"),
        (b"\x15", "held 164F504E30303017775E 1"),
        (b"\x15\x15", "held 164F504E30303017775E 2"),
        (b"\x15\x15\x15", "held 164F504E30303017775E 3"),
        (b"\x15\x15\x15\x15", "held 164F504E30303017775E 3"),
        (b"\x15\x16\x17\x00\x00", "held 164F504E30303017775E 1"),
        (b"\x15\x16TLE\x17\x47\xE9", "held 16544C4530313017C1A2 0"),
        (b"\x18", "held - 0"),
        (b"\x18\x15", "held - 0"),
    ] {
        let script = [piece(opn), piece(bytes), b"T".to_vec()].concat();
        assert_eq!(line(&log(&script), "held "), held, "{bytes:02X?}");
        let script = [piece(opn), piece(bytes), b"R".to_vec()].concat();
        assert_eq!(line(&log(&script), "held "), "held - 0", "{bytes:02X?}");
    }
}
