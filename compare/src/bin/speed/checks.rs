//! The check of both stores, which every device call makes, and a plain scan of
//! the same bytes. A check jumps over what is free in a record, so that with long
//! records it may well be faster than the scan.

use crate::report::{Figures, Row};
use crate::stores::{Stores, FULL, LENGTH, LOADED};
use compare::proved::table as proved;
use compare::timing;
use second::by_hand::table::{self as by_hand, Extent};
use second::table::store::SIZE;
use std::hint::black_box;

const CALL: &str = "check stores";
const ROUNDS: usize = 301;
const CALLS_A_ROUND: u32 = 20;

/// Both stores' bytes.
const BYTES: usize = 2 * SIZE;

/// What the check of some stores takes, proved and by hand, and a scan of them.
pub struct Check {
    input: String,
    ns: [f64; 3],
}

/// Stores that are full, that have few records and long ones, and that are almost
/// all zero.
pub fn measured() -> [Check; 3] {
    let [full, long, few] = [(FULL, LENGTH), (4, 997), (4, LENGTH)];
    [
        (format!("{FULL} records each"), full),
        ("4 long, zero rest".to_string(), long),
        ("4 short, zero rest".to_string(), few),
    ]
    .map(|(input, (records, length))| {
        let stores = Stores::of(&vec![LOADED; records], length, records);
        let ns = medians(&stores);
        Check { input, ns }
    })
}

impl Check {
    pub fn times(&self) -> Row {
        let [proved, by_hand, _] = self.ns;
        Row::times(CALL, &self.input, "call", [proved, by_hand])
    }

    pub fn rates(&self) -> Row {
        let figures = Figures::Rates {
            bytes: BYTES,
            ns: self.ns,
        };
        Row::of(CALL, &self.input, figures)
    }
}

/// Both sides must find the stores sound; then nothing of them was left out.
fn medians(stores: &Stores) -> [f64; 3] {
    assert!(proved_check(stores) && by_hand_check(stores));
    timing::medians(ROUNDS, |side| {
        timing::average(CALLS_A_ROUND, || {
            let stores = black_box(stores);
            black_box(match side {
                0 => proved_check(stores),
                1 => by_hand_check(stores),
                _ => (scan(&stores.live) | scan(&stores.loading)) == 0,
            });
        })
    })
}

fn proved_check(stores: &Stores) -> bool {
    let check = |store: &[u8], extent: Extent, network| {
        proved::check_store(store, extent.used, extent.records, network) == 1
    };
    check(&stores.live, stores.live_extent, 0) && check(&stores.loading, stores.load, LOADED)
}

fn by_hand_check(stores: &Stores) -> bool {
    by_hand::check_store(&stores.live, stores.live_extent, 0)
        && by_hand::check_store(&stores.loading, stores.load, LOADED)
}

/// All bytes joined, in as large steps as the compiler finds.
fn scan(bytes: &[u8]) -> u8 {
    black_box(bytes).iter().fold(0, |seen, byte| seen | byte)
}
