//! Loads at the limits of a store and past them, alone and together with what
//! stays.

use super::{records, Calls, A, B, BLOCK};
use crate::device::NAK;
use crate::material::command::{gts, tlr};
use crate::material::table::record_of;

pub fn cases(calls: &mut Calls) {
    calls.clear();
    by_records(calls);
    by_bytes(calls);
    calls.clear();
}

/// 512 records and 513. Nothing that is skipped counts.
fn by_records(calls: &mut Calls) {
    let live = [records(8, 300, 8), records(9, 212, 8)].concat();
    calls.load(0, &A, &live);
    calls.load(9, &B, &records(9, 213, 8));
    calls.load(7, &B, &records(7, 1, 8));
    calls.load(9, &B, &[records(9, 212, 8), records(8, 20, 9)].concat());
    calls.send(&gts(9));
    calls.load(0, &B, &[live, records(7, 1, 8)].concat());
    calls.send(&gts(9));
}

/// 32,768 bytes and 32,769. What comes after the record that does not fit is not
/// kept, though it would have its place.
fn by_bytes(calls: &mut Calls) {
    let mut full = records(8, 32, 997);
    full.push(record_of(b'2', 9, 32, 864));
    calls.load(0, &A, &full);
    calls.load(9, &B, &records(9, 1, 865));
    calls.load(7, &B, &records(7, 1, 8));
    calls.load(9, &B, &records(9, 1, 864));
    calls.send(&gts(9));
    full.pop();
    full.push(record_of(b'2', 9, 32, 865));
    calls.open_load(0, &B, &full);
    calls.send(&tlr(BLOCK));
    calls.send(b"TLR");
    calls.send(b"TLE");
    calls.piece(&[NAK]);
    calls.send(b"TLE");
    calls.send(&gts(9));
}

#[cfg(test)]
mod tests {
    use super::super::tests::responses;
    use super::{by_bytes, by_records, Calls};

    fn closed(cases: fn(&mut Calls)) -> Vec<String> {
        let mut responses = responses(cases);
        responses.retain(|one| one.starts_with("TLE"));
        responses
    }

    /// How the loads come out, in their order.
    #[test]
    fn at_the_limit_and_past_it() {
        let alike = ["TLE000", "TLE021", "TLE021", "TLE000", "TLE021"];
        assert_eq!(closed(by_records), alike);
        assert_eq!(closed(by_bytes), [&alike[..], &["TLE010"]].concat());
    }
}
