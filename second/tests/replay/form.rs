//! Small scripts, and their logs to the last byte.

use super::{assert_log, log, piece};
use second::replay::Calls;

const OPN: &[u8] = b"\x16OPN\x17\xA8\xA9";

/// What a fresh device is left in.
const FRESH: &str = "\
reception idle 0 0
held - 0
load closed
live 0 0
live-bytes -
loading-bytes -
";

#[test]
fn the_empty_script() {
    assert_log(b"", FRESH, &[], "");
    let log = log(b"");
    assert!(log.contains("\nversion 00 30303030303030303030\nversion 01 "));
    assert!(log.contains("\nversion 99 30303030303030303030\nstore 0000"));
    assert_eq!(log.lines().count(), 107);
}

/// The scope paper, section Sample line traffic.
#[test]
fn opn() {
    let lines = "\
B 0 7 06164F504E30303017775E
reception idle 0 0
held 164F504E30303017775E 0
load closed
live 0 0
live-bytes -
loading-bytes -
";
    assert_log(&piece(OPN), lines, &[], "4F504E");
}

/// Each offer is a call: two commands, two NAKs and CAN in one piece, with a byte
/// of no meaning before the last, and one behind it.
#[test]
fn what_is_left_of_a_piece_is_offered_again() {
    let script = piece(&[OPN, OPN, b"\x15\x15\x00\x18\x00"].concat());
    let lines = "\
B 0 7 06164F504E30303017775E
B 0 7 06164F504E30303017775E
B 0 1 164F504E30303017775E
B 0 1 164F504E30303017775E
B 0 2 04
B 0 1 -
";
    assert_log(&script, &(lines.to_string() + FRESH), &[], "4F504E");
}

/// Empty ones, and OPN cut into two with an empty one between.
#[test]
fn an_empty_piece_is_one_call() {
    assert_log(&piece(b""), &("B 0 0 -\n".to_string() + FRESH), &[], "");
    let script = [&OPN[..6], b"", b"", &OPN[6..], b"\x18"]
        .map(piece)
        .concat();
    let lines = "\
B 0 6 -
B 0 0 -
B 0 0 -
B 0 1 06164F504E30303017775E
B 0 1 04
";
    assert_log(&script, &(lines.to_string() + FRESH), &[], "4F504E");
}

#[test]
fn a_length_of_two_bytes() {
    let script = [piece(&[0; 258]), piece(&[0; 65_535])].concat();
    assert_eq!(script[..3], *b"B\x01\x02");
    let lines = "B 0 258 -\nB 0 65535 -\n";
    assert_log(&script, &(lines.to_string() + FRESH), &[], "");
}

/// A timeout and a restart on a fresh device, and either in half a packet.
#[test]
fn timeout_and_restart() {
    let lines = "T 0\nR 0\nR 0\nT 0\n".to_string() + FRESH;
    assert_log(b"TRRT", &lines, &[], "");
    let half = piece(b"\x16OP");
    for (event, line) in [(b"T", "T 0\n"), (b"R", "R 0\n")] {
        let lines = "B 0 3 -\n".to_string() + line + "B 0 4 -\n" + FRESH;
        let script = [&half[..], event, &piece(b"N\x17\xA8\xA9")].concat();
        assert_log(&script, &lines, &[], "4F50");
    }
}

/// What is held stays after a timeout and is forgotten by a restart.
#[test]
fn the_held_response_after_each() {
    let script = [
        &piece(OPN)[..],
        b"T",
        &piece(b"\x15"),
        b"R",
        &piece(b"\x15"),
    ]
    .concat();
    let lines = "\
B 0 7 06164F504E30303017775E
T 0
B 0 1 164F504E30303017775E
R 0
B 0 1 -
";
    assert_log(&script, &(lines.to_string() + FRESH), &[], "4F504E");
}

/// Everything that is no call, at the start and behind a call. What follows is
/// not called, and of a piece that breaks off no byte is handed over: CAN would
/// be answered.
#[test]
fn broken_scripts() {
    let breaks: [&[u8]; 12] = [
        b"X",
        b"b\x00\x00",
        b"t",
        b"\x00TR",
        b"\nB\x00\x01\x18",
        b"\xFFB\x00\x00",
        b"B",
        b"B\x00",
        b"B\x00\x01",
        b"B\x00\x02\x18",
        b"B\x01\x00\x18TR",
        b"B\xFF\xFF\x18\x18\x18",
    ];
    for script in breaks {
        assert_log(script, &("bad script\n".to_string() + FRESH), &[], "");
        let script = [&piece(b"\x18")[..], b"T", script].concat();
        let lines = "B 0 1 04\nT 0\nbad script\n".to_string() + FRESH;
        assert_log(&script, &lines, &[], "");
    }
}

/// Every byte but three begins no call.
#[test]
fn every_other_letter() {
    let first = |byte| log(&[byte, 0, 0]).lines().next().map(str::to_string);
    for byte in 0..=255 {
        let wanted = match byte {
            b'B' => "B 0 0 -",
            b'T' => "T 0",
            b'R' => "R 0",
            _ => "bad script",
        };
        assert_eq!(first(byte).as_deref(), Some(wanted), "{byte:02X}");
    }
}

#[test]
fn scripts_as_they_are_written() {
    let mut calls = Calls::default();
    calls.piece(b"");
    calls.timeout();
    calls.piece(&[0x18; 258]);
    calls.restart();
    calls.send(b"OPN");
    let long = piece(&[0x18; 258]);
    let wanted = [b"B\x00\x00T", &long[..], b"RB\x00\x07", OPN].concat();
    assert_eq!(calls.script, wanted);
}
