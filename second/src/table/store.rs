//! The lent stores: records end to end, and zeros.
//!
//! The scope paper, section Commands, gives live and loading store one size and
//! one form; section Numbered refusals of calls, refusal 3, has them judged by
//! what they hold.

use super::record::{self, Record};

/// The length of a store, and the most that its records may come to.
pub const SIZE: usize = 32_768;
pub const MOST_RECORDS: usize = 512;

/// Whether these records, together, are within both limits.
pub fn within_limits(records: &[Record]) -> bool {
    records.len() <= MOST_RECORDS && used_by(records) <= SIZE
}

/// The bytes that records take in a store.
pub fn used_by(records: &[Record]) -> usize {
    records.iter().map(|record| record.whole.len()).sum()
}

/// The store of records, which must be within the limits.
pub fn store_of(records: &[Record]) -> Vec<u8> {
    assert!(within_limits(records), "more than a store may hold");
    let wholes: Vec<&[u8]> = records.iter().map(|record| &record.whole[..]).collect();
    let mut store = wholes.concat();
    store.resize(SIZE, 0);
    store
}

/// Whether a store breaks no rule: the used part is that many whole records,
/// within the limits and each such as a load for that network takes; the rest is
/// zero. A live store is judged as that of a load for all networks.
///
/// A store that is not of its right length is for refusal 2, which comes before,
/// so the length is no rule here; the used part must lie within it.
pub fn sound(bytes: &[u8], used: usize, records: usize, network: u8) -> bool {
    let Some((part, rest)) = bytes.split_at_checked(used) else {
        return false;
    };
    let Some(kept) = record::list(part) else {
        return false;
    };
    kept.len() == records
        && within_limits(&kept)
        && kept.iter().all(|record| record.is_taken(network))
        && rest.iter().all(|&byte| byte == 0)
}

#[cfg(test)]
mod tests {
    use super::{sound, store_of, used_by, within_limits, SIZE};
    use crate::material::table::record_of;
    use crate::table::record::{list, Record};

    /// Records of network 7, kinds 1 to 3 in turn, with these lengths.
    fn of_lengths(lengths: &[usize]) -> Vec<Record> {
        let record = |(place, length): (usize, &usize)| {
            record_of(b'1' + (place % 3) as u8, 7, place, *length)
        };
        let bytes: Vec<u8> = lengths.iter().enumerate().flat_map(record).collect();
        list(&bytes).expect("good records")
    }

    /// The bytes of a store whose used part is these.
    fn padded(used: &[u8]) -> Vec<u8> {
        [used, &vec![0; SIZE - used.len()]].concat()
    }

    /// Whether a store is sound that holds this one record and nothing else.
    fn alone(record: &[u8], network: u8) -> bool {
        sound(&padded(record), record.len(), 1, network)
    }

    #[test]
    fn records_end_to_end_and_zeros() {
        let store = store_of(&of_lengths(&[8, 10]));
        assert_eq!(store.len(), 32_768);
        assert_eq!(&store[..18], b"008107  010207 !xx");
        assert!(store[18..].iter().all(|&byte| byte == 0));
        assert_eq!(store_of(&[]), vec![0; 32_768]);
    }

    #[test]
    fn what_is_stored_is_sound() {
        for lengths in [&[][..], &[8], &[997], &[8, 997, 64], &[8; 512], &[64; 512]] {
            let records = of_lengths(lengths);
            let (store, used) = (store_of(&records), used_by(&records));
            for network in [0, 7] {
                assert!(sound(&store, used, lengths.len(), network), "{lengths:?}");
            }
        }
    }

    /// Both limits met exactly, and each passed by one.
    #[test]
    fn the_limits() {
        let full = [&[997; 32][..], &[864]].concat();
        assert_eq!(full.iter().sum::<usize>(), 32_768);
        let over = [&[997; 32][..], &[865]].concat();
        for (lengths, within) in [
            (&[64; 512][..], true),
            (&[8; 512], true),
            (&[8; 513], false),
            (&full, true),
            (&over, false),
        ] {
            let records = of_lengths(lengths);
            assert_eq!(within_limits(&records), within);
            let mut bytes: Vec<u8> = records.iter().flat_map(|one| one.whole.clone()).collect();
            let used = bytes.len();
            bytes.resize(SIZE + 8, 0);
            assert_eq!(sound(&bytes, used, lengths.len(), 7), within);
        }
    }

    #[test]
    #[should_panic(expected = "more than a store may hold")]
    fn no_store_holds_more() {
        store_of(&of_lengths(&[8; 513]));
    }

    #[test]
    fn the_used_part_is_whole_records_of_that_number() {
        let records = of_lengths(&[8, 10, 9]);
        let store = store_of(&records);
        for used in 0..=40 {
            for number in 0..=5 {
                let right = used == 27 && number == 3;
                assert_eq!(sound(&store, used, number, 7), right, "{used} {number}");
            }
        }
        let empty = store_of(&[]);
        for (used, number) in [(0, 1), (1, 0), (8, 1), (SIZE, 0), (SIZE, 512)] {
            assert!(!sound(&empty, used, number, 0), "{used} {number}");
        }
    }

    #[test]
    fn huge_numbers() {
        let store = store_of(&of_lengths(&[8]));
        for huge in [SIZE + 1, 1 << 32, (1 << 32) + 8, usize::MAX - 1, usize::MAX] {
            assert!(!sound(&store, huge, 1, 0), "{huge}");
            assert!(!sound(&store, 8, huge, 0), "{huge}");
            assert!(!sound(&store, huge, huge, 0), "{huge}");
        }
    }

    #[test]
    fn the_rest_is_zero_to_its_last_byte() {
        let records = of_lengths(&[8, 10]);
        for place in [18, 19, 20_000, SIZE - 1] {
            let mut store = store_of(&records);
            store[place] = 1;
            assert!(!sound(&store, 18, 2, 7), "{place}");
        }
        let mut store = store_of(&[]);
        store[0] = 1;
        assert!(!sound(&store, 0, 0, 0));
    }

    #[test]
    fn only_what_a_load_takes_is_stored() {
        for kind in 0..=255 {
            let known = (0x31..=0x33).contains(&kind);
            assert_eq!(alone(&record_of(kind, 7, 0, 9), 7), known, "{kind:02X}");
        }
        for network in 0..=99 {
            let record = record_of(b'1', network, 0, 9);
            assert_eq!(alone(&record, 0), network != 0, "{network}");
            assert_eq!(alone(&record, 7), network == 7, "{network}");
            assert!(!alone(&record, 100), "{network}");
        }
    }

    #[test]
    fn the_form_of_a_record_is_judged() {
        assert!(alone(b"009107~ c", 7));
        for bad in [
            &b"007107A"[..],
            b"009107A\x7Fc",
            b"009107\x1FZc",
            b"0091:7AZc",
            b"00910/AZc",
            b"0:9107AZc",
            b"010107AZc",
            b"008107AZc",
        ] {
            assert!(!alone(bad, 7), "{bad:?}");
        }
        assert!(!alone(&record_of(b'1', 7, 0, 998), 7));
    }

    /// The rules of a record hold for each one, wherever it stands.
    #[test]
    fn one_bad_record_among_others() {
        for place in 0..3 {
            for bad in [*b"008107A\x7F", *b"008407AZ", *b"008108AZ", *b"008100AZ"] {
                let mut records = [*b"008107AZ"; 3];
                assert!(sound(&padded(&records.concat()), 24, 3, 7));
                records[place] = bad;
                assert!(!sound(&padded(&records.concat()), 24, 3, 7), "{place}");
            }
        }
    }

    #[test]
    fn equal_records_are_sound() {
        assert!(sound(&padded(&b"008107AZ".repeat(4)), 32, 4, 7));
    }

    /// Lengths are for refusal 2. An empty store has no rule left to break.
    #[test]
    fn stores_of_other_lengths() {
        let store = store_of(&of_lengths(&[8]));
        for length in 0..=40 {
            assert_eq!(sound(&store[..length], 8, 1, 7), length >= 8, "{length}");
            assert!(sound(&store[store.len() - length..], 0, 0, 7), "{length}");
        }
    }
}
