//! Changes to what a call is lent. Most break a rule; some keep all of them.

use compare::alike::device::Kept;
use compare::proved::device::Image;
use second::device::ROOM;
use second::material::command::VERSIONS;
use second::material::table::{random_network, TELLING};
use second::random::Random;
use second::table::record::{self, SHORTEST};
use second::table::store::SIZE;

type Byte = fn(&mut Image) -> &mut u8;
type Number = fn(&mut Image) -> &mut usize;
type Part = fn(&mut Image) -> &mut [u8];

const FLAGS: &[u8] = &[0, 1, 2, 255];
const USED: &[usize] = &[0, 8, 16, SIZE - 1, SIZE, SIZE + 1];
const RECORDS: &[usize] = &[0, 1, 511, 512, 513];
/// Neighbours of what a version's byte may be.
const PRINTABLE: &[u8] = &[0x1F, 0x20, 0x7E, 0x7F, 0x00, b'0'];

/// The fields of one byte, each with the values at which its meaning changes.
pub const BYTES: [(&str, Byte, &[u8]); 8] = [
    ("state", |image| &mut image.state, &[0, 1, 2, 3, 4, 5]),
    ("first", |image| &mut image.first, &[0, 1, 0x16, 255]),
    ("spoiled", |image| &mut image.spoiled, FLAGS),
    ("times", |image| &mut image.times, &[0, 1, 2, 3, 4, 255]),
    ("opened", |image| &mut image.opened, FLAGS),
    ("network", |image| &mut image.network, &[0, 9, 99, 100, 255]),
    ("over", |image| &mut image.over, FLAGS),
    ("any", |image| &mut image.any, FLAGS),
];

const NUMBERS: [(&str, Number, &[usize]); 6] = [
    ("count", |image| &mut image.count, &[0, 1, 2047, 2048, 2049]),
    ("length", |image| &mut image.length, &[0, 6, 18, 19, 20]),
    ("live used", |image| &mut image.live_used, USED),
    ("live records", |image| &mut image.live_records, RECORDS),
    ("load used", |image| &mut image.load_used, USED),
    ("load records", |image| &mut image.load_records, RECORDS),
];

const PARTS: [(&str, Part, &[u8]); 4] = [
    ("payload", |image| &mut image.payload, b"\x00012"),
    ("version", |image| &mut image.version, PRINTABLE),
    ("versions", |image| &mut image.versions, PRINTABLE),
    ("store", |image| &mut image.store, TELLING.as_slice()),
];

/// Payloads that a response has, and some that none has.
const PAYLOADS: [&[u8]; 12] = [
    b"OPN000",
    b"ERR010",
    b"TLE021",
    b"GTS011",
    b"GTS000010 ~ ~ ~ ~ ~",
    b"GTS000",
    b"TLR021",
    b"TLI010",
    b"OPN",
    b"GTS000010~ ~ ~ ~ ~",
    b"GTS000011 ~ ~ ~ ~ ~",
    b"GTS000010 ~ ~ ~ ~ \x7F",
];

/// Changes something at random; answers with its name.
pub fn random_break(random: &mut Random, kept: &mut Kept<Image>, room: &mut usize) -> &'static str {
    match random.below(32) {
        0..=9 => byte_field(random, &mut kept.device),
        10..=17 => number_field(random, &mut kept.device),
        18..=21 => part_field(random, &mut kept.device),
        22..=24 => live_byte(random, kept),
        25..=27 => loading_byte(random, kept),
        28 => store_length(random, kept),
        29 => held(random, &mut kept.device),
        30 => load(random, &mut kept.device),
        _ => {
            *room = random.below(ROOM);
            "room"
        }
    }
}

fn byte_field(random: &mut Random, image: &mut Image) -> &'static str {
    let (name, field, telling) = random.pick(&BYTES);
    other_byte(random, field(image), telling);
    name
}

/// A byte that is not what it was.
fn other_byte(random: &mut Random, byte: &mut u8, telling: &[u8]) {
    let other = match random.below(4) {
        0 => random.byte(),
        _ => random.pick(telling),
    };
    *byte = match other == *byte {
        true => *byte ^ 1,
        false => other,
    };
}

/// A number that is not what it was: one more or less, or, among others, one that
/// is the same in its low bytes.
fn number_field(random: &mut Random, image: &mut Image) -> &'static str {
    let (name, field, telling) = random.pick(&NUMBERS);
    let number = field(image);
    let other = match random.below(8) {
        0..=1 => number.wrapping_add(1),
        2..=3 => number.wrapping_sub(1),
        4 => number.wrapping_add(1 << random.pick(&[8, 16, 31, 32, 63])),
        5 => usize::MAX - random.below(9),
        _ => random.pick(telling),
    };
    *number = match other == *number {
        true => number.wrapping_add(1),
        false => other,
    };
    name
}

fn part_field(random: &mut Random, image: &mut Image) -> &'static str {
    let (name, field, telling) = random.pick(&PARTS);
    let part = field(image);
    let place = random.below(part.len());
    other_byte(random, &mut part[place], telling);
    name
}

fn live_byte(random: &mut Random, kept: &mut Kept<Image>) -> &'static str {
    store_byte(random, &mut kept.live, kept.device.live_used);
    "live byte"
}

fn loading_byte(random: &mut Random, kept: &mut Kept<Image>) -> &'static str {
    store_byte(random, &mut kept.loading, kept.device.load_used);
    "loading byte"
}

/// A byte anywhere, at an end of the used part, or in the head of a record.
fn store_byte(random: &mut Random, store: &mut [u8], used: usize) {
    let Some(last) = store.len().checked_sub(1) else {
        return;
    };
    let place = match random.below(4) {
        0 => random.below(last + 1),
        1 => random.pick(&[used.saturating_sub(1), used, last]),
        2 => random.below(used.clamp(1, SIZE)),
        _ => head(random, store.get(..used).unwrap_or_default()),
    };
    other_byte(random, &mut store[place.min(last)], &TELLING);
}

/// A place in the head of a record, if these are records.
fn head(random: &mut Random, used: &[u8]) -> usize {
    let records = record::list(used).unwrap_or_default();
    let before = random.below(records.len().max(1));
    let start: usize = records[..before].iter().map(|one| one.whole.len()).sum();
    start + random.below(SHORTEST)
}

fn store_length(random: &mut Random, kept: &mut Kept<Image>) -> &'static str {
    let length = random.pick(&[0, SIZE - 1, SIZE + 1]);
    match random.below(2) {
        0 => kept.live.resize(length, 0),
        _ => kept.loading.resize(length, 0),
    }
    "store length"
}

/// Another held response. How often it was sent stays.
fn held(random: &mut Random, image: &mut Image) -> &'static str {
    let payload = random.pick(&PAYLOADS);
    image.length = payload.len();
    image.payload.fill(0);
    image.payload[..payload.len()].copy_from_slice(payload);
    "held"
}

/// Opens a load, or has none open where one was. Its store stays.
fn load(random: &mut Random, image: &mut Image) -> &'static str {
    image.opened = 1 - image.opened.min(1);
    match image.opened {
        0 => {
            (image.network, image.over, image.any) = (0, 0, 0);
            (image.load_used, image.load_records) = (0, 0);
            image.version.fill(0);
        }
        _ => {
            image.network = random_network(random);
            image.version = random.pick(&VERSIONS);
            (image.over, image.any) = random.pick(&[(0, 0), (0, 1), (1, 0), (1, 1)]);
        }
    }
    "load"
}
