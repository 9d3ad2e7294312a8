//! The table calls on the lent stores themselves: a record is a place there, and
//! none is copied but to where it is kept.

use crate::table::block::COUNT;
use crate::table::record::{LONGEST, SHORTEST};
use crate::table::store::{MOST_RECORDS, SIZE};
use crate::table::ALL;

/// How far a store is used, in bytes and in records.
#[derive(Clone, Copy, Debug, Default, PartialEq)]
pub struct Extent {
    pub used: usize,
    pub records: usize,
}

/// As `store::sound`.
pub fn check_store(store: &[u8], extent: Extent, network: u8) -> bool {
    let Extent { used, records } = extent;
    if used > store.len() || used > SIZE || records > MOST_RECORDS {
        return false;
    }
    let mut place = 0;
    let mut count = 0;
    while place < used {
        let length = record_length(&store[place..used]);
        if length == 0 || !is_taken(&store[place..], network) {
            return false;
        }
        place += length;
        count += 1;
    }
    count == records && is_zero(&store[used..])
}

/// Looks at every byte: a walk that may be left at any of them is one that the
/// compiler takes byte by byte.
fn is_zero(bytes: &[u8]) -> bool {
    bytes.iter().fold(0, |seen, byte| seen | byte) == 0
}

/// Whether `block::read_block` has records.
pub fn block_is_good(block: &[u8]) -> bool {
    if block.len() < COUNT || !are_digits(&block[..COUNT]) {
        return false;
    }
    let mut left = told(&block[..COUNT]);
    let mut place = COUNT;
    while place < block.len() {
        let length = record_length(&block[place..]);
        if length == 0 || left == 0 {
            return false;
        }
        place += length;
        left -= 1;
    }
    left == 0 && place > COUNT
}

/// As `Load::add`, into the loading store; answers whether the load is over. The
/// block must have been judged.
pub fn add_block(
    store: &mut [u8],
    extent: &mut Extent,
    over: bool,
    network: u8,
    block: &[u8],
) -> bool {
    if over {
        return true;
    }
    let mut place = COUNT;
    while place < block.len() {
        let length = told(&block[place..place + 3]);
        let record = &block[place..place + length];
        place += length;
        if !is_taken(record, network) {
            continue;
        }
        if extent.records == MOST_RECORDS || length > SIZE - extent.used {
            return true;
        }
        store[extent.used..extent.used + length].copy_from_slice(record);
        extent.used += length;
        extent.records += 1;
    }
    false
}

/// As `load::close`, on both stores: a first walk measures what stays, a second
/// one moves it up. Both stores must be sound.
pub fn close_load(
    live: &mut [u8],
    loading: &mut [u8],
    extent: &mut Extent,
    load: Extent,
    over: bool,
    network: u8,
) -> bool {
    let staying = each_staying(live, extent.used, network, |_, _, _, _| {});
    let new = Extent {
        used: staying.used + load.used,
        records: staying.records + load.records,
    };
    let done = !over && new.used <= SIZE && new.records <= MOST_RECORDS;
    if done {
        each_staying(live, extent.used, network, |live, from, to, length| {
            if from != to {
                live.copy_within(from..from + length, to);
            }
        });
        live[staying.used..new.used].copy_from_slice(&loading[..load.used]);
        if new.used < extent.used {
            live[new.used..extent.used].fill(0);
        }
        *extent = new;
    }
    loading[..load.used].fill(0);
    done
}

/// Walks the records of networks not named and hands out each one's place, its
/// place after the close, and its length.
fn each_staying(
    live: &mut [u8],
    used: usize,
    network: u8,
    mut each: impl FnMut(&mut [u8], usize, usize, usize),
) -> Extent {
    let mut staying = Extent::default();
    let mut place = 0;
    while place < used {
        let length = told(&live[place..place + 3]);
        if network != ALL && network_of(&live[place..]) != network {
            each(live, place, staying.used, length);
            staying.used += length;
            staying.records += 1;
        }
        place += length;
    }
    staying
}

/// The length of the record at the start, 0 where no whole one stands there.
fn record_length(bytes: &[u8]) -> usize {
    if bytes.len() < SHORTEST || !are_digits(&bytes[..3]) || !are_digits(&bytes[4..6]) {
        return 0;
    }
    for byte in &bytes[6..8] {
        if !(0x20..=0x7E).contains(byte) {
            return 0;
        }
    }
    let length = told(&bytes[..3]);
    if !(SHORTEST..=LONGEST).contains(&length) || length > bytes.len() {
        return 0;
    }
    length
}

fn is_taken(record: &[u8], network: u8) -> bool {
    let own = network_of(record);
    (b'1'..=b'3').contains(&record[3]) && own != ALL && (network == ALL || network == own)
}

/// The network of a record whose digits have been judged.
fn network_of(record: &[u8]) -> u8 {
    (record[4] - b'0') * 10 + (record[5] - b'0')
}

fn are_digits(bytes: &[u8]) -> bool {
    bytes.iter().all(u8::is_ascii_digit)
}

/// What judged digits tell.
fn told(digits: &[u8]) -> usize {
    digits
        .iter()
        .fold(0, |number, digit| number * 10 + usize::from(digit - b'0'))
}
