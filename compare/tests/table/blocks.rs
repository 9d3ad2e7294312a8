//! Judging blocks.

use super::{padded, ROUNDS, SMALL_BLOCK};
use compare::alike::table as alike;
use compare::seed;
use second::material::limits::of_lengths;
use second::material::table::{block_of, random_blocks, random_load, random_network};
use second::material::table::{record_of, TELLING};
use second::material::{every_byte, every_damage, every_string, random_damage};
use second::random::Random;

#[test]
fn every_damage_to_small_blocks() {
    for block in [
        SMALL_BLOCK,
        b"01008\x00\x30\x30\x20\x7E",
        b"03008103AZ011x47~ abc008399  ",
    ] {
        assert!(alike::block_good(block));
        every_damage(block, |damaged| {
            alike::block_good(damaged);
        });
    }
    for length in 0..=3 {
        every_string(length, b"019/:", |block| {
            assert!(!alike::block_good(block));
        });
    }
}

#[test]
fn every_count() {
    let mut block = [b"00", &record_of(b'1', 3, 0, 8)[..]].concat();
    every_string(2, &every_byte(), |count| {
        block[..2].copy_from_slice(count);
        assert_eq!(alike::block_good(&block), count == b"01");
    });
    for records in (0..=4).chain([98, 99, 100]) {
        let bytes = vec![record_of(b'1', 3, 0, 8); records].concat();
        for count in 0..=99 {
            let block = [format!("{count:02}").as_bytes(), &bytes].concat();
            assert_eq!(alike::block_good(&block), count == records && count > 0);
        }
    }
}

/// A record that is as long as it says, alone and before another, in a block and
/// in a store; then one that is not.
#[test]
fn every_length_of_a_record() {
    let small = record_of(b'1', 3, 0, 8);
    for length in 0..=999 {
        let good = (8..=997).contains(&length);
        let mut record = record_of(b'1', 3, 0, length);
        for records in [vec![record.clone()], vec![record.clone(), small.clone()]] {
            assert_eq!(alike::block_good(&block_of(&records)), good, "{length}");
            let store = padded(&records.concat());
            let used = records.concat().len();
            assert_eq!(alike::check_store(&store, used, records.len(), 3), good);
        }
        for other in [8, 64, 989, 997] {
            record.resize(other, b'0');
            alike::block_good(&block_of(&[record.clone()]));
            alike::block_good(&block_of(&[record.clone(), small.clone()]));
        }
    }
}

#[test]
fn every_header_of_a_record() {
    for (place, byte) in (0..8).flat_map(|place| (0..=255).map(move |byte| (place, byte))) {
        let mut changed = record_of(b'1', 3, 0, 10);
        changed[place] = byte;
        let others = [record_of(b'2', 4, 1, 8), record_of(b'3', 5, 2, 30)];
        for turn in 0..=2 {
            let mut records = others.to_vec();
            records.insert(turn, changed.clone());
            alike::block_good(&block_of(&records));
        }
    }
}

#[test]
fn every_cut_of_long_blocks() {
    let mut random = Random::new(seed::told("every_cut_of_long_blocks"));
    for lengths in [&[997][..], &[8; 99], &[300, 8, 600, 89]] {
        let block = block_of(&of_lengths(&mut random, 7, lengths));
        for length in 0..=block.len() {
            let good = alike::block_good(&block[..length]);
            assert_eq!(good, length == block.len());
        }
    }
}

/// No length field can tell such a block, so no TLR brings it; its records are
/// judged as any others.
#[test]
fn blocks_over_999_bytes() {
    for lengths in [&[997, 8][..], &[997; 99], &[500, 498]] {
        let records: Vec<Vec<u8>> = lengths
            .iter()
            .map(|length| record_of(b'1', 7, 0, *length))
            .collect();
        let block = block_of(&records);
        assert!(alike::block_good(&block));
        alike::block_good(&block[..block.len() - 1]);
    }
}

#[test]
fn random_damaged_blocks() {
    let mut random = Random::new(seed::told("random_damaged_blocks"));
    for _ in 0..ROUNDS {
        let network = random_network(&mut random);
        let records = random_load(&mut random, network);
        let blocks = random_blocks(&mut random, &records);
        if let Some(block) = blocks.first() {
            assert!(alike::block_good(block));
            alike::block_good(&random_damage(&mut random, block, &TELLING));
        }
    }
}
