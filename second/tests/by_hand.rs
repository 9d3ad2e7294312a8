//! The hand-written calls, the measure of speed, answer as the others do.

use second::answer::{give, Answer, Outcome};
use second::by_hand::table::Extent;
use second::material::table::{block_of, random_blocks, random_load, random_network};
use second::material::{self, every_damage, every_string};
use second::random::Random;
use second::table::block::read_block;
use second::table::load::{close, Load};
use second::table::record::Record;
use second::table::store::{sound, store_of, used_by, SIZE};
use second::{by_hand, check, message, object, packet, script};

const SEED: u64 = 0x5345_434F_4E44;

fn assert_alike(outcome: Outcome, room: usize, call: impl Fn(&mut [u8]) -> Answer) {
    let mut wanted = script::fresh_buffer(room);
    let mut got = script::fresh_buffer(room);
    let answer = give(outcome, &mut wanted);
    assert_eq!(call(&mut got), answer);
    assert_eq!(got, wanted);
}

fn assert_reads_alike(bytes: &[u8], room: usize) {
    assert_alike(packet::read(bytes), room, |out| {
        by_hand::packet::read(bytes, out)
    });
}

fn assert_writes_alike(payload: &[u8], room: usize) {
    assert_alike(packet::write(payload), room, |out| {
        by_hand::packet::write(payload, out)
    });
}

fn assert_messages_read_alike(message: &[u8], response: bool, room: usize) {
    assert_alike(message::read(message, response), room, |out| {
        by_hand::message::read(message, response, out)
    });
}

fn assert_messages_written_alike(head: &[u8], response: bool, list: &[u8], room: usize) {
    assert_alike(message::write(head, response, list), room, |out| {
        by_hand::message::write(head, response, list, out)
    });
}

fn assert_objects_read_alike(input: &[u8]) {
    assert_eq!(by_hand::object::read(input), object::read(input));
}

fn assert_picked_alike(tags: &[u8], objects: &[u8], room: usize) {
    assert_alike(object::pick(tags, objects), room, |out| {
        by_hand::object::pick(tags, objects, out)
    });
}

#[test]
fn the_nine_digits() {
    assert_eq!(by_hand::packet::without_etb(b"123456789"), 0x31C3);
}

#[test]
fn the_checks_agree_on_random_bytes() {
    let mut random = Random::new(SEED);
    for _ in 0..300 {
        let length = material::packet::random_length(&mut random);
        let bytes = material::random_bytes(&mut random, length, &material::packet::TELLING);
        let without = by_hand::packet::without_etb(&bytes);
        assert_eq!(without, check::without_etb(&bytes));
        assert_eq!(by_hand::packet::check_of(&bytes), check::check_of(&bytes));
    }
}

#[test]
fn short_strings_are_read_alike() {
    for length in 0..=5 {
        every_string(length, &material::packet::TELLING, |bytes| {
            assert_reads_alike(bytes, 3);
        });
    }
}

#[test]
fn short_payloads_are_written_and_read_alike_in_every_room() {
    for length in 0..=3 {
        every_string(length, &material::packet::TELLING, |payload| {
            let packet = packet::framed(payload);
            for room in 0..=packet.len() + 1 {
                assert_writes_alike(payload, room);
                assert_reads_alike(&packet, room);
            }
        });
    }
}

#[test]
fn damaged_samples_are_read_alike() {
    for payload in [&b"OPN"[..], &[0x16]] {
        every_damage(&packet::framed(payload), |damaged| {
            assert_reads_alike(damaged, 4);
        });
    }
}

#[test]
fn random_payloads_and_damaged_packets_are_taken_alike() {
    let mut random = Random::new(SEED);
    let telling = material::packet::TELLING;
    for _ in 0..300 {
        let length = material::packet::random_length(&mut random);
        let payload = material::random_bytes(&mut random, length, &telling);
        let packet = packet::framed(&payload);
        assert_writes_alike(&payload, packet.len() - random.below(2));
        assert_reads_alike(&packet, length.saturating_sub(random.below(2)));
        let damaged = material::random_damage(&mut random, &packet, &telling);
        assert_reads_alike(&damaged, damaged.len());
    }
}

#[test]
fn damaged_messages_are_read_alike() {
    let message = b"CEX009\x00\x06\x00\x01a\x00\x07\x00\x00004\x00\x06\x00\x00";
    every_damage(message, |damaged| {
        assert_messages_read_alike(damaged, false, 13);
        assert_messages_read_alike(damaged, true, 13);
    });
    every_damage(&message[6..15], |list| {
        assert_messages_written_alike(b"CEX", false, list, 32);
    });
    every_damage(b"CEX000", |head| {
        assert_messages_written_alike(head, true, &[], 8);
        assert_messages_written_alike(head, false, &[], 8);
    });
}

#[test]
fn messages_of_every_size_are_read_alike() {
    let mut random = Random::new(SEED);
    for size in 0..=2100 {
        let response = random.below(2) == 1;
        let message = material::message::random_message(&mut random, size, response);
        let room = material::random_room(&mut random, size);
        assert_messages_read_alike(&message, response, room);
    }
}

#[test]
fn random_lists_are_written_and_read_alike() {
    let mut random = Random::new(SEED);
    for _ in 0..600 {
        let response = random.below(2) == 1;
        let parameters = material::message::random_parameters(&mut random);
        let list = parameters.concat();
        let head = material::message::random_head(&mut random, response);
        let needed = message::write(&head, response, &list).map_or(8, |message| message.len());
        let room = material::random_room(&mut random, needed);
        assert_messages_written_alike(&head, response, &list, room);
        let blocks = material::message::random_blocks(&mut random, &parameters);
        let message = message::framed(&head, &blocks);
        let room = material::random_room(&mut random, list.len());
        assert_messages_read_alike(&message, response, room);
        let telling = material::message::TELLING;
        let damaged = material::random_damage(&mut random, &list, &telling);
        assert_messages_written_alike(&head, response, &damaged, 2048);
        let damaged = material::random_damage(&mut random, &message, &telling);
        assert_messages_read_alike(&damaged, response, 2048);
    }
}

#[test]
fn headers_of_objects_are_read_alike() {
    for length in 0..=5 {
        every_string(length, &material::object::TELLING, |input| {
            assert_objects_read_alike(input);
        });
    }
    let long = vec![0; 70_000];
    for header in [&[0x95, 0x82, 0xFF, 0xFF][..], &[0x95, 0x82, 0x01, 0x00]] {
        for value in [0, 255, 256, 65_534, 65_535, 65_536] {
            assert_objects_read_alike(&[header, &long[..value]].concat());
        }
    }
}

#[test]
fn picks_are_alike() {
    let mut random = Random::new(SEED);
    let telling = material::object::TELLING;
    for _ in 0..3000 {
        let tags = material::object::random_tags(&mut random);
        let objects = material::object::random_objects(&mut random);
        let needed = object::pick(&tags, &objects).map_or(8, |picked| picked.len());
        let room = material::random_room(&mut random, needed);
        assert_picked_alike(&tags, &objects, room);
        let damaged = material::random_damage(&mut random, &objects, &telling);
        assert_picked_alike(&tags, &damaged, 4096);
        let damaged = material::random_damage(&mut random, &tags, &telling);
        assert_picked_alike(&damaged, &objects, 4096);
    }
}

/// A store of the hand-written calls.
struct Store {
    bytes: Vec<u8>,
    extent: Extent,
}

impl Store {
    fn empty() -> Self {
        Store {
            bytes: vec![0; SIZE],
            extent: Extent::default(),
        }
    }

    fn assert_holds(&self, records: &[Record], network: u8) {
        let extent = Extent {
            used: used_by(records),
            records: records.len(),
        };
        assert_eq!(self.extent, extent);
        assert!(self.bytes == store_of(records), "the stores differ");
        assert!(by_hand::table::check_store(&self.bytes, extent, network));
    }
}

/// Whether the load is over.
fn assert_added_alike(load: &mut Load, store: &mut Store, over: bool, block: &[u8]) -> bool {
    assert!(by_hand::table::block_is_good(block));
    load.add(read_block(block).expect("a good block"));
    let Store { bytes, extent } = store;
    let over = by_hand::table::add_block(bytes, extent, over, load.network, block);
    assert_eq!(over, load.over);
    store.assert_holds(&load.kept, load.network);
    over
}

#[test]
fn loads_are_added_and_closed_alike() {
    let mut random = Random::new(SEED);
    let mut live = Vec::new();
    let (mut live_store, mut loading_store) = (Store::empty(), Store::empty());
    let mut closed = [0, 0];
    for _ in 0..400 {
        let mut load = Load::open(random_network(&mut random));
        let network = load.network;
        let records = random_load(&mut random, network);
        let mut over = false;
        for block in random_blocks(&mut random, &records) {
            over = assert_added_alike(&mut load, &mut loading_store, over, &block);
        }
        let done = close(&mut live, load);
        let by_hand = by_hand::table::close_load(
            &mut live_store.bytes,
            &mut loading_store.bytes,
            &mut live_store.extent,
            loading_store.extent,
            over,
            network,
        );
        loading_store.extent = Extent::default();
        assert_eq!(by_hand, done);
        live_store.assert_holds(&live, 0);
        loading_store.assert_holds(&[], network);
        closed[usize::from(done)] += 1;
    }
    assert!(closed.iter().all(|count| *count > 20), "{closed:?}");
}

#[test]
fn damaged_blocks_are_judged_alike() {
    let assert_judged = |block: &[u8]| {
        let good = by_hand::table::block_is_good(block);
        assert_eq!(good, read_block(block).is_some(), "{block:?}");
    };
    every_damage(b"02010103AZab008299  ", assert_judged);
    let mut random = Random::new(SEED);
    for _ in 0..1000 {
        let mut records = random_load(&mut random, 9);
        records.truncate(3);
        let block = block_of(&records);
        let telling = material::table::TELLING;
        assert_judged(&material::random_damage(&mut random, &block, &telling));
    }
}

#[test]
fn damaged_stores_are_judged_alike() {
    let mut judged = [0, 0];
    for (network, number) in [(0, 3), (7, 3), (8, 3), (7, 2)] {
        every_damage(b"010107AZab008207  009307~~c", |damaged| {
            let mut store = damaged.to_vec();
            store.resize(64, 0);
            for used in [27, damaged.len()] {
                let records = number;
                let by_hand =
                    by_hand::table::check_store(&store, Extent { used, records }, network);
                assert_eq!(by_hand, sound(&store, used, number, network), "{damaged:?}");
                judged[usize::from(by_hand)] += 1;
            }
        });
    }
    assert!(judged.iter().all(|count| *count > 1000), "{judged:?}");
    for numbers in [usize::MAX, SIZE + 1, 513] {
        let extent = Extent {
            used: 0,
            records: numbers,
        };
        assert!(!by_hand::table::check_store(&vec![0; SIZE], extent, 0));
    }
}
