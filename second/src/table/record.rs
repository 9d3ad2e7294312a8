//! Table records.
//!
//! The scope paper, section Commands: a record starts with its own length in
//! three digits, its kind, its network in two digits and its index in two bytes;
//! what follows is free.

use super::ALL;
use crate::{digits, pieces};

/// A record without free bytes.
pub const SHORTEST: usize = 8;
/// What a block has room for beside its count.
pub const LONGEST: usize = 997;

#[derive(Clone, Debug, PartialEq)]
pub struct Record {
    /// Any byte at all; those of no known kind are skipped, not refused.
    pub kind: u8,
    /// From 0 to 99.
    pub network: u8,
    /// The record as it stands in a block or store.
    pub whole: Vec<u8>,
}

impl Record {
    /// Whether a load for that network takes the record. It skips all others:
    /// those of no known kind, those of network "00", and, unless it is a load
    /// for all networks, those of other networks than its own.
    pub fn is_taken(&self, network: u8) -> bool {
        matches!(self.kind, b'1'..=b'3') && self.network != ALL && self.is_named(network)
    }

    /// Whether that network names the record's own.
    pub fn is_named(&self, network: u8) -> bool {
        network == ALL || self.network == network
    }
}

/// The records that these bytes are, nothing left over.
pub fn list(bytes: &[u8]) -> Option<Vec<Record>> {
    pieces::all(bytes, |rest| first(rest).ok_or(())).ok()
}

fn first(bytes: &[u8]) -> Option<(Record, &[u8])> {
    let length = digits::number(bytes.get(..3)?)?;
    if !(SHORTEST..=LONGEST).contains(&length) {
        return None;
    }
    let (whole, rest) = bytes.split_at_checked(length)?;
    let network = digits::number(&whole[4..6])?;
    if !whole[6..8].iter().all(|byte| matches!(byte, 0x20..=0x7E)) {
        return None;
    }
    let record = Record {
        kind: whole[3],
        network: u8::try_from(network).ok()?,
        whole: whole.to_vec(),
    };
    Some((record, rest))
}

#[cfg(test)]
mod tests {
    use super::{list, Record};
    use crate::material::table::record_of;

    fn only(bytes: &[u8]) -> Option<Record> {
        let mut records = list(bytes)?;
        assert_eq!(records.len(), 1);
        records.pop()
    }

    #[test]
    fn kind_and_network_stand_behind_the_length() {
        let record = Record {
            kind: b'2',
            network: 47,
            whole: b"011247AZabc".to_vec(),
        };
        assert_eq!(only(b"011247AZabc"), Some(record));
    }

    #[test]
    fn every_byte_in_every_place_of_the_shortest() {
        for (place, byte) in (0..8).flat_map(|place| (0..=255).map(move |byte| (place, byte))) {
            let mut bytes = *b"008103AZ";
            bytes[place] = byte;
            let right = match place {
                0..=2 => byte == b"008"[place],
                3 => true,
                4..=5 => (0x30..=0x39).contains(&byte),
                _ => (0x20..=0x7E).contains(&byte),
            };
            assert_eq!(only(&bytes).is_some(), right, "{place} {byte:02X}");
        }
    }

    #[test]
    fn every_length() {
        for length in 0..=999 {
            let right = (8..=997).contains(&length);
            let mut bytes = record_of(b'1', 3, 0, length);
            bytes.resize(length.max(8), b'x');
            assert_eq!(only(&bytes).is_some(), right, "{length}");
        }
    }

    #[test]
    fn every_network() {
        for network in 0..=99 {
            let record = only(&record_of(b'1', network, 0, 9));
            assert_eq!(record.map(|one| one.network), Some(network));
        }
    }

    #[test]
    fn free_bytes_may_have_any_value() {
        for byte in 0..=255 {
            let bytes = [b"010103AZ", &[byte; 2][..]].concat();
            assert_eq!(only(&bytes).map(|one| one.whole), Some(bytes), "{byte:02X}");
        }
    }

    #[test]
    fn lists_come_in_order_and_must_not_break_off() {
        let bytes = [&b"010103AZab"[..], b"008200  ", b"009x99~~c"].concat();
        for length in 0..=bytes.len() {
            let count = list(&bytes[..length]).map(|records| records.len());
            let wanted = match length {
                0 => Some(0),
                10 => Some(1),
                18 => Some(2),
                27 => Some(3),
                _ => None,
            };
            assert_eq!(count, wanted, "cut to {length}");
        }
        let records = list(&bytes).expect("three records");
        assert_eq!(records[0].whole, b"010103AZab");
        assert_eq!(records[1].whole, b"008200  ");
        assert_eq!(records[2].whole, b"009x99~~c");
    }

    #[test]
    fn only_three_kinds_are_taken() {
        for kind in 0..=255 {
            let record = only(&record_of(kind, 3, 0, 8)).expect("a record");
            let known = (0x31..=0x33).contains(&kind);
            assert_eq!(record.is_taken(0), known, "{kind:02X}");
            assert_eq!(record.is_taken(3), known, "{kind:02X}");
        }
    }

    #[test]
    fn every_network_by_a_load_for_every_network() {
        for own in 0..=99 {
            let record = only(&record_of(b'3', own, 0, 8)).expect("a record");
            for network in 0..=99 {
                let named = network == 0 || network == own;
                assert_eq!(record.is_named(network), named, "{own} {network}");
                assert_eq!(record.is_taken(network), own != 0 && named);
            }
        }
    }
}
