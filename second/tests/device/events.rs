//! Timeout and restart.

use super::{ask, ask_version, assert_store, load, open_load, Line, A, B, RECORD};
use second::device::{Done, Reception, State};
use second::packet::framed;

fn timeout(line: &mut Line) {
    let done = line.device.timeout(64, &line.live, &line.loading);
    assert_eq!(done, Done::default());
}

fn restart(line: &mut Line) {
    let done = line.device.restart(64, &line.live, &mut line.loading);
    assert_eq!(done, Done::default());
}

/// Starts of packets, one for each reception state.
const STARTS: [(&[u8], State); 5] = [
    (&[], State::Idle),
    (&[0x16, b'T', b'L'], State::InData),
    (&[0x16, b'T', b'L', 0x13], State::InDataAfter13h),
    (&[0x16, b'T', b'L', 0x13, 0x17], State::FirstCheckByte),
    (&[0x16, b'T', b'L', 0x17, 9], State::SecondCheckByte(9)),
];

/// A device with live records, an open load and a held response.
fn busy() -> Line {
    let mut line = Line::fresh();
    load(&mut line, 7, &A, &[RECORD.to_vec()], b"TLE000");
    open_load(&mut line, 7, &B, &[RECORD.to_vec(), RECORD.to_vec()]);
    line
}

#[test]
fn both_leave_reception_idle() {
    for event in [timeout, restart] {
        for (start, state) in STARTS {
            let mut line = busy();
            assert!(line.replies(start).is_empty());
            assert_eq!(line.device.reception.state, state);
            let store = line.device.reception.store;
            event(&mut line);
            let idle = Reception {
                store,
                ..Reception::fresh()
            };
            assert_eq!(line.device.reception, idle);
            ask(&mut line, b"OPN", b"OPN000");
        }
    }
}

/// What is left of the packet is bytes to an idle device.
#[test]
fn the_rest_of_a_packet_after_a_timeout() {
    let mut line = busy();
    let packet = framed(b"OPN");
    assert!(line.replies(&packet[..3]).is_empty());
    timeout(&mut line);
    assert!(line.replies(&packet[3..]).is_empty());
    assert_eq!(line.replies(&[0x15]), [framed(b"TLR000")]);
}

#[test]
fn a_timeout_keeps_load_and_response() {
    let mut line = busy();
    assert_eq!(line.replies(&[0x15, 0x15]).len(), 2);
    let (tables, held) = (line.device.tables.clone(), line.device.held.clone());
    timeout(&mut line);
    assert_eq!((&line.device.tables, &line.device.held), (&tables, &held));
    assert_eq!(line.replies(&[0x15, 0x15]), [framed(b"TLR000")]);
    ask(&mut line, b"TLE", b"TLE000");
    assert_store(&line.live, &[RECORD, RECORD].concat());
    ask_version(&mut line, 7, &B);
}

#[test]
fn a_restart_drops_both_and_keeps_what_is_live() {
    let mut line = busy();
    restart(&mut line);
    assert_eq!(
        (&line.device.tables.load, &line.device.held),
        (&None, &None)
    );
    assert_store(&line.loading, b"");
    assert_store(&line.live, RECORD);
    assert!(line.replies(&[0x15]).is_empty());
    ask(&mut line, b"TLE", b"TLE010");
    ask_version(&mut line, 7, &A);
}

#[test]
fn a_restart_with_nothing_open() {
    let mut line = Line::fresh();
    let before = line.device.clone();
    restart(&mut line);
    timeout(&mut line);
    assert_eq!(line.device, before);
}
