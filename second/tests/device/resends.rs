//! NAK, CAN, and the held response.

use super::{ask, open_load, Line, A, RECORD};
use second::device::Held;
use second::packet::framed;

/// A device that has answered OPN.
fn opened() -> Line {
    let mut line = Line::fresh();
    ask(&mut line, b"OPN", b"OPN000");
    line
}

#[test]
fn nak_with_nothing_held_is_ignored() {
    let mut line = Line::fresh();
    assert!(line.replies(&[0x15; 10]).is_empty());
    assert_eq!(line.device.held, None);
}

/// Without ACK.
#[test]
fn a_response_is_sent_again_three_times() {
    let mut line = opened();
    let again = line.replies(&[0x15; 10]);
    assert_eq!(again, vec![framed(b"OPN000"); 3]);
    assert!(line.replies(&[0x15; 300]).is_empty());
    let held = line.device.held.expect("it is still held");
    assert_eq!((&held.payload[..], held.resends), (&b"OPN000"[..], 3));
}

#[test]
fn each_response_has_its_own_three() {
    let mut line = opened();
    line.replies(&[0x15; 4]);
    ask(&mut line, b"GTS", b"GTS011");
    assert_eq!(line.replies(&[0x15; 4]), vec![framed(b"GTS011"); 3]);
}

#[test]
fn can_forgets_the_response() {
    let mut line = opened();
    assert_eq!(line.replies(&[0x18, 0x15, 0x15]), [[0x04]]);
    assert_eq!(line.device.held, None);
}

#[test]
fn can_leaves_a_load_open() {
    let mut line = Line::fresh();
    open_load(&mut line, 7, &A, &[RECORD.to_vec()]);
    assert_eq!(line.replies(&[0x18]), [[0x04]]);
    ask(&mut line, b"TLE", b"TLE000");
    super::assert_store(&line.live, RECORD);
}

/// The count of resends stays as well.
#[test]
fn a_bad_packet_leaves_the_response_held() {
    let mut line = opened();
    assert_eq!(line.replies(&[0x15, 0x15]).len(), 2);
    for bad in [&[0x16, 0x17, 0, 0][..], &[0x16, 0x4F, 0x13, 0x17, 0, 0]] {
        assert_eq!(line.replies(bad), [[0x15]]);
    }
    assert_eq!(line.replies(&[0x15, 0x15]), [framed(b"OPN000")]);
}

#[test]
fn inside_a_packet_they_are_data() {
    let mut line = opened();
    let replies = line.replies(&framed(&[0x15, 0x18, 0x15, 0x04, 0x06]));
    assert_eq!(replies, [[&[0x06], &framed(b"ERR010")[..]].concat()]);
    let held = Held::new(b"ERR010".to_vec());
    assert_eq!(line.device.held, Some(held));
}

/// As check bytes they are that.
#[test]
fn in_the_check_they_are_check_bytes() {
    let mut line = opened();
    assert_eq!(line.replies(&[0x16, b'x', 0x17, 0x18, 0x15]), [[0x15]]);
    assert_eq!(line.replies(&[0x15]), [framed(b"OPN000")]);
}

/// A resend runs nothing: one TLR adds once.
#[test]
fn the_command_runs_once() {
    let mut line = Line::fresh();
    open_load(&mut line, 7, &A, &[RECORD.to_vec()]);
    assert_eq!(line.replies(&[0x15; 3]), vec![framed(b"TLR000"); 3]);
    super::assert_store(&line.loading, RECORD);
}
