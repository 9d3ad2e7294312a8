//! Loads: opened, added to block by block, closed or dropped.

use super::SMALL_BLOCK;
use compare::alike::table::{self as alike, Tables};
use compare::seed;
use second::material::every_damage;
use second::material::limits::{about_a_limit, of_lengths, random_loads};
use second::material::table::{block_of, full_blocks, random_blocks, random_lengths};
use second::material::table::{random_load, random_network, record_of};
use second::random::Random;
use second::table::store::SIZE;

const LOADS: usize = 400;
const FULL_SETS: usize = 100;

/// A whole load, its records in these blocks; answers whether they are live.
fn load(tables: &mut Tables, network: u8, blocks: &[Vec<u8>]) -> bool {
    tables.open(network);
    for block in blocks {
        tables.add(block);
    }
    tables.close()
}

/// Records of every network to loads for every network.
#[test]
fn every_network() {
    let mut tables = Tables::fresh();
    let records: Vec<Vec<u8>> = (0..100)
        .map(|network| record_of(b'1' + network % 3, network, 0, 9))
        .collect();
    for network in (1..100).chain([0]).chain((1..100).rev()) {
        assert!(load(&mut tables, network, &full_blocks(&records)));
    }
}

#[test]
fn every_kind() {
    let mut tables = Tables::fresh();
    let records: Vec<Vec<u8>> = (0..=255)
        .flat_map(|kind| [7, 0, 8].map(|network| record_of(kind, network, 0, 10)))
        .collect();
    for network in [7, 0, 8, 9] {
        assert!(load(&mut tables, network, &full_blocks(&records)));
    }
}

#[test]
fn loads_without_records() {
    let records: Vec<Vec<u8>> = (0..300)
        .map(|place| record_of(b'2', 1 + (place % 5) as u8, place, 8 + place % 90))
        .collect();
    for networks in [&[3, 5, 1, 2, 4][..], &[9, 99], &[4, 4], &[0, 0], &[2, 0]] {
        let mut tables = Tables::fresh();
        assert!(load(&mut tables, 0, &full_blocks(&records)));
        for network in networks {
            assert!(load(&mut tables, *network, &[]));
        }
    }
}

#[test]
fn equal_records_are_all_kept() {
    let mut tables = Tables::fresh();
    let records = vec![record_of(b'1', 7, 3, 20); 130];
    for network in [7, 7, 0, 7] {
        assert!(load(&mut tables, network, &full_blocks(&records)));
    }
}

/// One load in eight is dropped for the next.
#[test]
fn loads_at_random() {
    let mut random = Random::new(seed::told("loads_at_random"));
    let mut tables = Tables::fresh();
    let mut closed = [0, 0];
    for _ in 0..LOADS {
        let network = random_network(&mut random);
        let records = random_load(&mut random, network);
        tables.open(network);
        for block in random_blocks(&mut random, &records) {
            tables.add(&block);
        }
        if random.below(8) > 0 {
            closed[usize::from(tables.close())] += 1;
        }
    }
    assert!(closed.iter().all(|count| *count > 0), "{closed:?}");
}

/// What stays of the live records and a load come to a limit together.
#[test]
fn sets_about_both_limits() {
    let mut random = Random::new(seed::told("sets_about_both_limits"));
    let mut tables = Tables::fresh();
    let mut closed = [0, 0];
    for _ in 0..FULL_SETS {
        let loads = random_loads(&mut random);
        assert!(load(&mut tables, 0, &full_blocks(&loads.live)));
        let blocks = random_blocks(&mut random, &loads.new);
        assert_eq!(load(&mut tables, loads.network, &blocks), loads.within);
        closed[usize::from(loads.within)] += 1;
    }
    assert!(closed.iter().all(|count| *count > 0), "{closed:?}");
}

/// The set of a load by itself, which replaces one about as large, and a small
/// record that may come too late.
#[test]
fn loads_for_all_networks_about_both_limits() {
    let mut random = Random::new(seed::told("loads_for_all_networks_about_both_limits"));
    let mut tables = Tables::fresh();
    let mut closed = [0, 0];
    for _ in 0..FULL_SETS {
        let (records, bytes) = about_a_limit(&mut random);
        let lengths = random_lengths(&mut random, records, bytes);
        let mut new = Vec::new();
        for length in lengths {
            let network = 1 + random.below(99) as u8;
            new.extend(of_lengths(&mut random, network, &[length]));
        }
        let late = random.below(2);
        new.extend(vec![record_of(b'3', 99, 0, 8); late]);
        let within = records + late <= 512 && bytes + 8 * late <= 32_768;
        let blocks = random_blocks(&mut random, &new);
        assert_eq!(load(&mut tables, 0, &blocks), within, "{records} {bytes}");
        closed[usize::from(within)] += 1;
    }
    assert!(closed.iter().all(|count| *count > 0), "{closed:?}");
}

/// Records that fill a load to a limit, and some that leave room for a few.
fn full_loads() -> [Vec<Vec<u8>>; 4] {
    let long = vec![record_of(b'1', 7, 0, 997); 32];
    let mut to_the_last_byte = long.clone();
    to_the_last_byte.push(record_of(b'2', 7, 1, 864));
    [
        vec![record_of(b'1', 7, 0, 8); 512],
        vec![record_of(b'1', 7, 0, 64); 512],
        to_the_last_byte,
        long,
    ]
}

/// A load that is full may skip as much as it likes. One that is over takes
/// nothing more, be it as small as it can.
#[test]
fn what_comes_after_a_full_load() {
    let skipped = vec![
        record_of(b'4', 7, 0, 64),
        record_of(b'1', 8, 0, 997),
        record_of(b'1', 0, 0, 8),
    ];
    let small = vec![record_of(b'1', 7, 9, 8)];
    let long = vec![record_of(b'1', 7, 9, 997), record_of(b'1', 7, 9, 8)];
    let mut tables = Tables::fresh();
    for full in full_loads() {
        let has_room = full.len() == 32;
        for (after, done) in [
            (&[&skipped, &skipped][..], true),
            (&[&small, &small, &skipped], has_room),
            (&[&long], false),
            (&[&long, &small, &skipped, &small], false),
        ] {
            let all = [&full].into_iter().chain(after.iter().copied());
            let blocks: Vec<Vec<u8>> = all.flat_map(|records| full_blocks(records)).collect();
            assert_eq!(load(&mut tables, 7, &blocks), done);
        }
    }
}

/// The scope paper, section Numbered refusals of calls, has states judged by what
/// they are: a load may be marked over and yet have the room for more.
#[test]
fn loads_marked_over_with_room_left() {
    let mut tables = Tables::fresh();
    let small = block_of(&[record_of(b'1', 7, 0, 8), record_of(b'2', 8, 0, 30)]);
    assert!(load(&mut tables, 0, std::slice::from_ref(&small)));
    for network in [7, 0, 9] {
        for blocks in 0..=2 {
            tables.open(network);
            (0..blocks).for_each(|_| tables.add(&small));
            tables.mark_over();
            tables.add(&small);
            assert!(!tables.close());
        }
    }
}

/// The scope paper, section Commands: a TLR that gets 011 adds nothing.
#[test]
fn bad_blocks_add_nothing() {
    let mut tables = Tables::fresh();
    tables.open(3);
    tables.add(SMALL_BLOCK);
    every_damage(SMALL_BLOCK, |damaged| {
        if !alike::block_good(damaged) {
            tables.add(damaged);
        }
    });
    tables.add(SMALL_BLOCK);
    assert!(tables.close());
}

#[test]
fn stores_of_every_length_are_zeroed() {
    for length in (0..=70).chain([4095, 4096, 4097, SIZE - 1, SIZE, SIZE + 1]) {
        alike::zero_store(length);
    }
}
