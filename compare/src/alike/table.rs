//! The table calls: judgements of stores and blocks, and loads on stores that
//! both programs keep side by side.

use super::NOT_LENT;
use crate::proved::table as proved;
use second::script::{fresh_buffer, shown};
use second::table::block::read_block;
use second::table::load::{close, Load};
use second::table::record::Record;
use second::table::store::{sound, store_of, used_by, SIZE};
use second::table::version::{closed, Version, Versions};

/// Judges a store; answers with the judgement.
pub fn check_store(store: &[u8], used: usize, records: usize, network: u8) -> bool {
    let wanted = sound(store, used, records, network);
    let got = proved::check_store(store, used, records, network);
    assert_eq!(
        got,
        u8::from(wanted),
        "store of {} bytes, used {used}, records {records}, network {network}: {}",
        store.len(),
        shown(without_zeros(store)),
    );
    wanted
}

/// Judges a block; answers with the judgement.
pub fn block_good(block: &[u8]) -> bool {
    let wanted = read_block(block).is_some();
    let got = proved::block_good(block);
    assert_eq!(got, u8::from(wanted), "block {}", shown(block));
    wanted
}

/// Zeroes a store of that length, full of other bytes.
pub fn zero_store(length: usize) {
    let mut got = fresh_buffer(length + NOT_LENT);
    proved::zero_store(&mut got[..length]);
    let mut wanted = fresh_buffer(length + NOT_LENT);
    wanted[..length].fill(0);
    assert_bytes(&got, &wanted, || format!("zero {length} bytes"));
}

/// Brings versions up to date.
pub fn versions_after(versions: &mut Versions, network: u8, version: Version) {
    let behind = [0xEE; NOT_LENT];
    let mut got = [&versions.concat()[..], &behind].concat();
    let lent = got.len() - NOT_LENT;
    proved::versions_after(&mut got[..lent], network, &version);
    closed(versions, network, version);
    let wanted = [&versions.concat()[..], &behind].concat();
    assert_bytes(&got, &wanted, || {
        format!("versions after {network} {}", shown(&version))
    });
}

/// Hands versions over in bytes that are too few or too many, or a version that
/// is; nothing may change.
pub fn versions_left_alone(length: usize, network: u8, version: &[u8]) {
    let mut got = fresh_buffer(length + NOT_LENT);
    proved::versions_after(&mut got[..length], network, version);
    assert_bytes(&got, &fresh_buffer(length + NOT_LENT), || {
        format!("{length} bytes of versions, {} of one", version.len())
    });
}

/// Both programs' tables. After each call every byte of both stores and every
/// number is compared, and both stores are judged.
pub struct Tables {
    /// The second program's live set and load. With no load open there is an
    /// empty one, whose store is the same.
    set: Vec<Record>,
    load: Load,
    /// The proved code's stores, with bytes behind them that are not lent, and
    /// their numbers.
    live: Vec<u8>,
    loading: Vec<u8>,
    used: usize,
    records: usize,
    numbers: proved::Load,
}

impl Tables {
    /// Those of a fresh device. What was in the stores before is gone.
    pub fn fresh() -> Self {
        let mut tables = Tables {
            set: Vec::new(),
            load: Load::open(0),
            live: fresh_buffer(SIZE + NOT_LENT),
            loading: fresh_buffer(SIZE + NOT_LENT),
            used: 0,
            records: 0,
            numbers: proved::Load::default(),
        };
        proved::zero_store(&mut tables.live[..SIZE]);
        tables.open(0);
        tables
    }

    /// Opens a load, and drops one already open.
    pub fn open(&mut self, network: u8) {
        self.load = Load::open(network);
        proved::zero_store(&mut self.loading[..SIZE]);
        self.numbers = proved::Load::default();
        self.assert_alike(|| format!("open {network}"));
    }

    /// Adds a block to the open load. A bad one adds nothing.
    pub fn add(&mut self, block: &[u8]) {
        if let Some(records) = read_block(block) {
            self.load.add(records);
        }
        let network = self.load.network;
        let loading = &mut self.loading[..SIZE];
        self.numbers = proved::add_block(loading, self.numbers, network, block);
        self.assert_alike(|| format!("add for {network} {}", shown(block)));
    }

    /// Marks the open load as over, whatever it holds.
    pub fn mark_over(&mut self) {
        self.load.over = true;
        self.numbers.over = 1;
    }

    /// Closes the open load; answers whether its records are live.
    pub fn close(&mut self) -> bool {
        let network = self.load.network;
        let load = std::mem::replace(&mut self.load, Load::open(network));
        let before = (self.used, self.records, self.numbers);
        let done = close(&mut self.set, load);
        let got = proved::close_load(
            &mut self.live[..SIZE],
            &mut self.loading[..SIZE],
            self.used,
            self.records,
            self.numbers,
            network,
        );
        (self.used, self.records) = (got.used, got.records);
        self.numbers = proved::Load::default();
        let call = || format!("close for {network}, before {before:?}");
        assert_eq!(got.done, u8::from(done), "{}", call());
        self.assert_alike(call);
        done
    }

    fn assert_alike(&self, call: impl Fn() -> String) {
        let Tables { set, load, .. } = self;
        let used = (self.used, self.records);
        assert_eq!(used, (used_by(set), set.len()), "live, {}", call());
        let numbers = proved::Load {
            used: used_by(&load.kept),
            records: load.kept.len(),
            over: u8::from(load.over),
        };
        assert_eq!(self.numbers, numbers, "loading, {}", call());
        assert_store(&self.live, set, || format!("live, {}", call()));
        assert_store(&self.loading, &load.kept, || format!("loading, {}", call()));
        let (live, loading) = (&self.live[..SIZE], &self.loading[..SIZE]);
        assert!(check_store(live, self.used, self.records, 0));
        let proved::Load { used, records, .. } = numbers;
        assert!(check_store(loading, used, records, load.network));
    }
}

/// The store of these records, and behind it what was not lent.
fn assert_store(store: &[u8], records: &[Record], call: impl Fn() -> String) {
    let mut wanted = store_of(records);
    wanted.extend(&fresh_buffer(store.len())[SIZE..]);
    assert_bytes(store, &wanted, call);
}

fn assert_bytes(got: &[u8], wanted: &[u8], call: impl Fn() -> String) {
    if got != wanted {
        let same = got
            .iter()
            .zip(wanted)
            .take_while(|(got, wanted)| got == wanted);
        let place = same.count();
        panic!(
            "{}\ndiffers from place {place} on\nproved {}\nsecond {}",
            call(),
            shown(without_zeros(&got[place..])),
            shown(without_zeros(&wanted[place..])),
        );
    }
}

/// The bytes up to the last that is not zero.
fn without_zeros(bytes: &[u8]) -> &[u8] {
    let zeros = bytes.iter().rev().take_while(|&&byte| byte == 0).count();
    &bytes[..bytes.len() - zeros]
}
