//! Timeouts and restarts, in every reception state and with everything there that
//! they leave or forget.

use super::{Calls, A, B, BLOCK, RECORD};
use crate::device::NAK;
use crate::material::command::{gts, tlr};
use crate::packet::framed;

/// What goes before each event: the start of a TLE, for each reception state one,
/// and some in which the packet is spoiled.
const STARTS: [&[u8]; 9] = [
    b"",
    b"\x16",
    b"\x16TL",
    b"\x16TLE\x13",
    b"\x16TLE\x17",
    b"\x16TLE\x17\x47",
    b"\x16TL\x13-E",
    b"\x16TLE\x13\x17",
    b"\x16TLE\x13\x17\x47",
];

pub fn cases(calls: &mut Calls) {
    for event in [Calls::timeout, Calls::restart] {
        for start in STARTS {
            calls.load(7, &A, &[RECORD.to_vec()]);
            calls.open_load(7, &B, &[RECORD.to_vec(), RECORD.to_vec()]);
            calls.piece(&[NAK]);
            calls.piece(start);
            event(calls);
            what_is_left(calls);
        }
        event(calls);
        event(calls);
    }
}

/// The rest of the packet, which is bytes to an idle device, and then whatever
/// tells one that has forgotten from one that has not.
fn what_is_left(calls: &mut Calls) {
    calls.piece(b"E\x17\x47\xE9");
    calls.piece(&[NAK; 3]);
    calls.send(&tlr(BLOCK));
    calls.send(b"TLE");
    calls.send(&gts(7));
    let opn = framed(b"OPN");
    calls.piece(&opn[..6]);
    calls.piece(&opn[6..]);
}

#[cfg(test)]
mod tests {
    use super::super::tests::responses;
    use super::{cases, STARTS};

    /// After a timeout the load goes on, after a restart it is gone. No packet that
    /// was begun is ended.
    #[test]
    fn what_is_forgotten() {
        let before = ["TLI020", "TLR000", "TLE000", "TLI020", "TLR000"];
        let goes_on = ["TLR000", "TLE000", "GTS000", "OPN000"];
        let is_gone = ["TLR010", "TLE010", "GTS000", "OPN000"];
        let timeouts = [&before[..], &goes_on].concat().repeat(STARTS.len());
        let mut restarts = [&before[..], &is_gone].concat().repeat(STARTS.len());
        // What a restart has dropped brought no version: the one before is held.
        let turns = 1..STARTS.len();
        turns.for_each(|turn| restarts[9 * turn] = "TLI000");
        assert_eq!(responses(cases), [timeouts, restarts].concat());
    }
}
