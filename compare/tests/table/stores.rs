//! Judging stores.

use super::{padded, ROUNDS};
use compare::alike::table as alike;
use compare::proved::table as proved;
use compare::seed;
use second::material::limits::of_lengths;
use second::material::table::{random_lengths, random_load, random_network};
use second::material::table::{record_of, KINDS, TELLING};
use second::material::{every_damage, random_damage};
use second::random::Random;
use second::table::store::{sound, SIZE};

/// Three records of network 7, one of each kind.
const SMALL_STORE: &[u8] = b"010107AZab008207 ~009307~ c";

/// Numbers past every limit, some of them right for the small store in their low
/// bytes.
const HUGE: [usize; 8] = [
    SIZE + 1,
    (1 << 16) + 3,
    (1 << 16) + SMALL_STORE.len(),
    1 << 31,
    (1 << 32) + 3,
    (1 << 32) + SMALL_STORE.len(),
    usize::MAX - 1,
    usize::MAX,
];

#[test]
fn every_change_to_a_small_store() {
    let used = SMALL_STORE.len();
    let rest = [used, used + 1, used + 7, 4096, SIZE / 2, SIZE - 2, SIZE - 1];
    let mut store = padded(SMALL_STORE);
    let mut sound = 0;
    for place in (0..used).chain(rest) {
        let before = store[place];
        for byte in 0..=255 {
            store[place] = byte;
            for network in [0, 7] {
                sound += usize::from(alike::check_store(&store, used, 3, network));
            }
        }
        store[place] = before;
    }
    assert!(sound > 1000, "{sound}");
}

/// As above, with the used part as long as what came of it.
#[test]
fn every_damage_to_a_small_store() {
    every_damage(SMALL_STORE, |damaged| {
        let store = padded(damaged);
        alike::check_store(&store, damaged.len(), 3, 0);
        alike::check_store(&store, damaged.len(), 3, 7);
    });
    let mut store = padded(SMALL_STORE);
    for length in 0..=999 {
        store[..3].copy_from_slice(format!("{length:03}").as_bytes());
        for used in [SMALL_STORE.len(), 17 + length] {
            alike::check_store(&store, used, 3, 7);
        }
    }
}

#[test]
fn every_number_for_a_small_store() {
    let store = padded(SMALL_STORE);
    for used in (0..=40).chain([SIZE - 1, SIZE]).chain(HUGE) {
        for records in (0..=5).chain([512, 513]).chain(HUGE) {
            for network in [0, 7, 8] {
                let sound = alike::check_store(&store, used, records, network);
                assert_eq!(sound, (used, records) == (27, 3) && network != 8);
                alike::check_store(&padded(&[]), used, records, network);
            }
        }
    }
}

/// Every number that a byte can tell for a network, those of no network included.
#[test]
fn every_network_for_a_small_store() {
    for own in 0..=99 {
        let store = padded(&record_of(b'1', own, 0, 9));
        for network in 0..=255 {
            let sound = alike::check_store(&store, 9, 1, network);
            assert_eq!(sound, own != 0 && (network == 0 || network == own));
        }
    }
    for network in 0..=255 {
        assert!(alike::check_store(&padded(&[]), 0, 0, network));
    }
}

/// A store that is too short is for refusal 2. Judged here is whether the used
/// part lies in it and is sound. Longer ones are below.
#[test]
fn short_stores() {
    let store = padded(SMALL_STORE);
    for length in (0..=60).chain([4096, SIZE - 1]) {
        for used in [0, 8, 10, 18, 27, 28, length] {
            for records in 0..=3 {
                alike::check_store(&store[..length], used, records, 7);
            }
        }
        for huge in HUGE {
            alike::check_store(&store[..length], huge, 3, 7);
            alike::check_store(&store[..length], 27, huge, 7);
        }
    }
    alike::check_store(&[], 0, 0, 0);
}

/// THE ONE KNOWN DIFFERENCE. The scope paper's limit of 32,768 bytes is a rule of
/// the store for the second program; the proved call takes the store's own length
/// for the limit. They part only where a store is longer than it may be, which
/// refusal 2 catches before either is asked.
#[test]
fn longer_stores_are_judged_by_their_own_length() {
    let records: Vec<Vec<u8>> = (0..33).map(|n| record_of(b'1', 7, n, 997)).collect();
    let used = records.concat();
    assert!(used.len() > SIZE);
    let store = [&used[..], &[0; 8]].concat();
    assert_eq!(proved::check_store(&store, used.len(), 33, 7), 1);
    assert!(!sound(&store, used.len(), 33, 7));
    let within = [SMALL_STORE, &[0; SIZE]].concat();
    assert!(alike::check_store(&within, SMALL_STORE.len(), 3, 7));
}

/// One record more than there may be, in a store that has the room for it.
#[test]
fn a_store_of_513_records() {
    for length in [8, 9, 63] {
        let records = vec![record_of(b'1', 7, 0, length); 513].concat();
        let used = records.len();
        assert!(!alike::check_store(&padded(&records), used, 513, 7));
        assert!(alike::check_store(
            &padded(&records[length..]),
            used - length,
            512,
            7
        ));
    }
}

/// Stores with no rest, or as many records as there may be, or both: as they
/// are, with numbers that are wrong by one, and with one byte changed.
#[test]
fn full_stores() {
    let mut random = Random::new(seed::told("full_stores"));
    for (count, bytes) in [
        (512, SIZE),
        (512, 512 * 8),
        (33, SIZE),
        (512, 20_000),
        (40, SIZE - 1),
    ] {
        let lengths = random_lengths(&mut random, count, bytes);
        let mut store = padded(&of_lengths(&mut random, 7, &lengths).concat());
        for network in [0, 7] {
            assert!(alike::check_store(&store, bytes, count, network));
        }
        for (used, records) in [(bytes, count - 1), (bytes, count + 1), (bytes - 1, count)] {
            assert!(!alike::check_store(&store, used, records, 0));
        }
        for _ in 0..ROUNDS / 5 {
            let place = random.below(SIZE);
            let before = store[place];
            store[place] = random.pick(&TELLING);
            alike::check_store(&store, bytes, count, 7);
            store[place] = before;
        }
    }
}

#[test]
fn random_damaged_stores() {
    let mut random = Random::new(seed::told("random_damaged_stores"));
    for _ in 0..ROUNDS {
        let network = random_network(&mut random);
        let mut records = random_load(&mut random, network);
        records.truncate(random.below(40));
        records.retain(|record| KINDS.contains(&record[3]));
        let used = match random.below(2) {
            0 => records.concat(),
            _ => random_damage(&mut random, &records.concat(), &TELLING),
        };
        if used.len() <= SIZE {
            alike::check_store(&padded(&used), used.len(), records.len(), network);
            alike::check_store(&padded(&used), used.len(), records.len(), 0);
        }
    }
}
