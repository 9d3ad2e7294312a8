//! What matters to the table calls.

use crate::message::LARGEST_BLOCK;
use crate::random::Random;
use crate::table::block::{COUNT, MOST_IN_A_BLOCK};
use crate::table::record::{LONGEST, SHORTEST};

/// The values that decide how a record reads: digits at both ends of their range
/// and of the kinds, their neighbours, and those at both ends of an index byte's.
pub const TELLING: [u8; 14] = *b"0134789/:\x1F\x20\x7E\x7F\x00";

/// The kinds that a load takes.
pub const KINDS: [u8; 3] = *b"123";

/// Few networks, so that one is loaded again and again, at both ends and with
/// like digits.
pub const NETWORKS: [u8; 6] = [0, 1, 9, 10, 90, 99];

/// How many values an index byte has.
const INDEX_VALUES: usize = 0x7F - 0x20;

/// A record with free bytes all alike, its index the number's. Of a length that
/// no record can have it comes out cut off or with a digit too many.
pub fn record_of(kind: u8, network: u8, number: usize, length: usize) -> Vec<u8> {
    let index = [number / INDEX_VALUES, number].map(|part| 0x20 + (part % INDEX_VALUES) as u8);
    let mut record = format!("{length:03}").into_bytes();
    record.push(kind);
    record.extend(format!("{network:02}").bytes());
    record.extend(index);
    record.resize(length, b'x');
    record
}

/// The block of these records, whatever they are.
pub fn block_of(records: &[Vec<u8>]) -> Vec<u8> {
    let mut block = format!("{:02}", records.len()).into_bytes();
    block.extend(records.concat());
    block
}

/// The records in blocks, each filled with as many as it can hold.
pub fn full_blocks(records: &[Vec<u8>]) -> Vec<Vec<u8>> {
    blocks_by(records, || false)
}

/// The records in blocks, each ended by chance or when it is full.
pub fn random_blocks(random: &mut Random, records: &[Vec<u8>]) -> Vec<Vec<u8>> {
    let chance = 1 + random.below(MOST_IN_A_BLOCK);
    blocks_by(records, || random.below(chance) == 0)
}

fn blocks_by(records: &[Vec<u8>], mut ends: impl FnMut() -> bool) -> Vec<Vec<u8>> {
    let mut blocks: Vec<&[Vec<u8>]> = Vec::new();
    let mut start = 0;
    let mut length = COUNT;
    for (place, record) in records.iter().enumerate() {
        let full = place - start == MOST_IN_A_BLOCK || length + record.len() > LARGEST_BLOCK;
        if place > start && (full || ends()) {
            blocks.push(&records[start..place]);
            start = place;
            length = COUNT;
        }
        length += record.len();
    }
    if start < records.len() {
        blocks.push(&records[start..]);
    }
    blocks.into_iter().map(block_of).collect()
}

/// A record with random index and free bytes.
pub fn random_record(random: &mut Random, kind: u8, network: u8, length: usize) -> Vec<u8> {
    let number = random.below(INDEX_VALUES * INDEX_VALUES);
    let free = super::random_bytes(random, length - SHORTEST, &TELLING);
    let mut record = record_of(kind, network, number, SHORTEST);
    record.splice(..3, format!("{length:03}").into_bytes());
    record.extend(free);
    record
}

/// A record that a load for that network, not "00", skips.
pub fn random_skipped(random: &mut Random, network: u8) -> Vec<u8> {
    let length = SHORTEST + random.below(64);
    let kind = random.pick(&KINDS);
    match random.below(3) {
        0 => random_record(random, kind, 0, length),
        1 => random_record(random, kind, (network + 1) % 100, length),
        _ => random_unknown(random, network, length),
    }
}

/// A record that every load skips.
pub fn random_skipped_by_all(random: &mut Random) -> Vec<u8> {
    let length = SHORTEST + random.below(64);
    let kind = random.pick(&KINDS);
    let network = random_network(random);
    match random.below(2) {
        0 => random_record(random, kind, 0, length),
        _ => random_unknown(random, network, length),
    }
}

/// A record of no known kind.
fn random_unknown(random: &mut Random, network: u8, length: usize) -> Vec<u8> {
    let kind = random.pick(b"0456789/:A\x00\xFF\x13\x16\x17");
    random_record(random, kind, network, length)
}

/// That many lengths of records that come to the total. The average must be a
/// record's length.
pub fn random_lengths(random: &mut Random, count: usize, total: usize) -> Vec<usize> {
    let mut rest = total;
    (0..count)
        .rev()
        .map(|after| {
            let least = rest.saturating_sub(after * LONGEST).max(SHORTEST);
            let most = (rest - after * SHORTEST).min(LONGEST);
            let twice_the_average = 2 * rest / (after + 1);
            let most = most.min(twice_the_average.max(least));
            let length = least + random.below(most - least + 1);
            rest -= length;
            length
        })
        .collect()
}

/// The network that a TLI names: mostly one of a few.
pub fn random_network(random: &mut Random) -> u8 {
    match random.below(8) {
        0 => random.below(100) as u8,
        _ => random.pick(&NETWORKS),
    }
}

/// Records of a load for that network, one in eight of which may be of any kind
/// and network: none, a few, many small, or so many that a store is full of them
/// or over.
pub fn random_load(random: &mut Random, network: u8) -> Vec<Vec<u8>> {
    let (count, most) = match random.below(8) {
        0 => (0, SHORTEST),
        1..=3 => (random.below(20), 100),
        4 => (random.below(20), LONGEST),
        5 => (random.below(200), 64),
        6 => (450 + random.below(200), 70),
        _ => (40 + random.below(60), LONGEST),
    };
    (0..count)
        .map(|_| {
            let length = SHORTEST + random.below(most - SHORTEST + 1);
            let (kind, network) = random_fields(random, network);
            random_record(random, kind, network, length)
        })
        .collect()
}

fn random_fields(random: &mut Random, network: u8) -> (u8, u8) {
    match (random.below(8), network) {
        (0, _) => (random.pick(b"0123456789"), random_network(random)),
        (_, 0) => (random.pick(&KINDS), 1 + random.below(99) as u8),
        _ => (random.pick(&KINDS), network),
    }
}

#[cfg(test)]
mod tests {
    use super::{full_blocks, random_blocks, random_lengths, random_load};
    use super::{random_record, random_skipped, random_skipped_by_all, record_of};
    use crate::random::Random;
    use crate::table::block::read_block;
    use crate::table::load::Load;
    use crate::table::record::list;

    #[test]
    fn lengths_come_to_their_total() {
        let mut random = Random::new(1);
        for (count, total) in [
            (1, 8),
            (1, 997),
            (33, 32_768),
            (40, 32_769),
            (512, 32_768),
            (513, 513 * 8),
            (513, 513 * 9),
            (500, 500 * 997),
        ] {
            let lengths = random_lengths(&mut random, count, total);
            assert_eq!(lengths.len(), count);
            assert_eq!(lengths.iter().sum::<usize>(), total);
            assert!(lengths.iter().all(|length| (8..=997).contains(length)));
        }
    }

    #[test]
    fn blocks_are_good_and_hold_all_records() {
        let mut random = Random::new(1);
        for _ in 0..200 {
            let records = random_load(&mut random, 9);
            for blocks in [full_blocks(&records), random_blocks(&mut random, &records)] {
                let read = blocks.iter().flat_map(|block| {
                    assert!(block.len() <= 999);
                    read_block(block).expect("a good block")
                });
                let read: Vec<Vec<u8>> = read.map(|record| record.whole).collect();
                assert_eq!(read, records);
            }
        }
    }

    #[test]
    fn full_blocks_have_no_room_for_the_next() {
        let records: Vec<Vec<u8>> = (0..512)
            .map(|place| record_of(b'1', 1, place, 64))
            .collect();
        let blocks = full_blocks(&records);
        let lengths: Vec<usize> = blocks.iter().map(Vec::len).collect();
        assert_eq!(lengths, [&[2 + 15 * 64; 34][..], &[2 + 2 * 64]].concat());
        let small = vec![record_of(b'1', 1, 0, 8); 100];
        let lengths: Vec<usize> = full_blocks(&small).iter().map(Vec::len).collect();
        assert_eq!(lengths, [2 + 99 * 8, 2 + 8]);
    }

    #[test]
    fn records_have_their_kind_network_and_length() {
        let mut random = Random::new(1);
        for (kind, network, length) in [(b'1', 0, 8), (b'x', 99, 997), (b'3', 10, 64)] {
            let bytes = random_record(&mut random, kind, network, length);
            let records = list(&bytes).expect("a good record");
            assert_eq!(bytes.len(), length);
            assert_eq!(records.len(), 1);
            assert_eq!((records[0].kind, records[0].network), (kind, network));
        }
    }

    #[test]
    fn skipped_records_are_skipped() {
        let mut random = Random::new(1);
        for network in 1..=99 {
            let skipped: Vec<u8> = (0..20)
                .flat_map(|_| random_skipped(&mut random, network))
                .collect();
            let mut load = Load::open(network);
            load.add(list(&skipped).expect("good records"));
            assert_eq!(load, Load::open(network));
        }
        for network in 0..=99 {
            let mut load = Load::open(network);
            let skipped = random_skipped_by_all(&mut random);
            load.add(list(&skipped).expect("a good record"));
            assert_eq!(load, Load::open(network));
        }
    }

    /// Loads of each sort come up: empty, kept, and over by either limit.
    #[test]
    fn loads_of_every_sort() {
        let mut random = Random::new(1);
        let mut seen = [0; 4];
        for _ in 0..400 {
            let records = random_load(&mut random, 9).concat();
            let mut load = Load::open(9);
            load.add(list(&records).expect("good records"));
            seen[match (load.kept.len(), load.over) {
                (0, _) => 0,
                (_, false) => 1,
                (512, true) => 2,
                (_, true) => 3,
            }] += 1;
        }
        assert!(seen.iter().all(|count| *count > 0), "{seen:?}");
    }
}
