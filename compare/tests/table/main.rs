//! The table calls, proved against second: loads one after another on the same
//! stores, versions, and every change to small stores and blocks.

mod blocks;
mod loads;
mod stores;
mod versions;

use second::table::store::SIZE;

/// Two records, the second without free bytes.
const SMALL_BLOCK: &[u8] = b"02010103AZab008299  ";

/// Rounds of a call that is soon made.
const ROUNDS: usize = 5_000;

/// The bytes of a store whose used part is these.
fn padded(used: &[u8]) -> Vec<u8> {
    let mut store = used.to_vec();
    store.resize(SIZE, 0);
    store
}
