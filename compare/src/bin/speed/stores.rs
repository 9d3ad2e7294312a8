//! The stores that table calls are made on.

use second::by_hand::table::Extent;
use second::material::table::record_of;
use second::table::store::{MOST_RECORDS, SIZE};

/// The network of every load here, and another one.
pub const LOADED: u8 = 7;
pub const OTHER: u8 = 8;

/// A store that is full by bytes and by records at once.
pub const FULL: usize = MOST_RECORDS;
pub const LENGTH: usize = SIZE / FULL;

/// Both stores and their numbers.
#[derive(Clone, PartialEq)]
pub struct Stores {
    pub live: Vec<u8>,
    pub live_extent: Extent,
    pub loading: Vec<u8>,
    pub load: Extent,
    pub over: bool,
}

impl Stores {
    /// Live records of these networks, and a load of that many.
    pub fn of(live: &[u8], length: usize, load: usize) -> Self {
        let (live, live_extent) = store(live, length);
        let (loading, load) = store(&vec![LOADED; load], length);
        Stores {
            live,
            live_extent,
            loading,
            load,
            over: false,
        }
    }
}

/// So many records of a network.
pub fn records(network: u8, length: usize, count: usize) -> Vec<Vec<u8>> {
    vec![record_of(b'1', network, 0, length); count]
}

fn store(networks: &[u8], length: usize) -> (Vec<u8>, Extent) {
    let record = |network: &u8| record_of(b'1', *network, 0, length);
    let mut store: Vec<u8> = networks.iter().flat_map(record).collect();
    let extent = Extent {
        used: store.len(),
        records: networks.len(),
    };
    store.resize(SIZE, 0);
    (store, extent)
}
