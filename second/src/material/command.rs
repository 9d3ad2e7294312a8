//! What matters to the commands: their payloads, right and wrong.

use super::packet::TELLING as TELLING_IN_PACKETS;
use super::table::{block_of, random_blocks, random_load, random_network};
use super::table::{record_of, TELLING};
use super::{random_bytes, random_damage};
use crate::random::Random;
use crate::table::block::COUNT;
use crate::table::record::SHORTEST;
use crate::table::version::{Version, NONE};

/// Few versions, so that one that is named is often the one held.
pub const VERSIONS: [Version; 4] = [NONE, *b"TABVER0008", *b" ~ ~ ~ ~ ~", *b"XEMVST0003"];

/// Behind how many bytes of a block each field of its first record starts.
const RECORD_NETWORK: usize = COUNT + 4;
const RECORD_INDEX: usize = COUNT + 6;

pub fn gts(network: u8) -> Vec<u8> {
    format!("GTS002{network:02}").into_bytes()
}

pub fn tli(network: u8, version: &Version) -> Vec<u8> {
    let mut payload = format!("TLI012{network:02}").into_bytes();
    payload.extend(version);
    payload
}

/// The block must not be longer than a length field can tell.
pub fn tlr(block: &[u8]) -> Vec<u8> {
    assert!(block.len() <= 999, "a block of {} bytes", block.len());
    let mut payload = format!("TLR{:03}", block.len()).into_bytes();
    payload.extend(block);
    payload
}

/// A command with its right layout, and, if it is a TLR, a good block for that
/// network.
pub fn random_command(random: &mut Random, network: u8) -> Vec<u8> {
    let version = random.pick(&VERSIONS);
    match random.below(8) {
        0..=1 => b"OPN".to_vec(),
        2..=4 => gts(random_network(random)),
        5 => tli(network, &version),
        6 => b"TLE".to_vec(),
        _ => tlr(&random_block(random, network)),
    }
}

/// A command with a wrong layout, or none at all.
pub fn random_wrong_command(random: &mut Random) -> Vec<u8> {
    let network = random_network(random);
    let command = match random.below(10) {
        0 => return random_more(random),
        1 => return random_nameless(random),
        2 => return wrong_length_field(random, network),
        3 => return tlr(&random_bad_block(random, network)),
        4 => return wrong_network(random),
        5 => return wrong_version(random, network),
        6 => gts(network),
        7 => tli(network, &random.pick(&VERSIONS)),
        _ => random_command(random, network),
    };
    random_damage(random, &command, &TELLING)
}

/// A block of up to some records of that network.
pub fn random_block(random: &mut Random, network: u8) -> Vec<u8> {
    let mut records = random_load(random, network);
    records.truncate(1 + random.below(12));
    match random_blocks(random, &records).pop() {
        Some(block) => block,
        None => block_of(&[b"008103AZ".to_vec()]),
    }
}

/// A block that is bad in one place: its count, its length, or a field of its
/// first record.
pub fn random_bad_block(random: &mut Random, network: u8) -> Vec<u8> {
    let mut block = random_block(random, network);
    match random.below(12) {
        0 => block[..COUNT].copy_from_slice(b"00"),
        1 => block[COUNT - 1] = b'0' + (block[COUNT - 1] - b'0' + 1) % 10,
        2 => block[random.below(COUNT)] = random.pick(b"/: \x00"),
        3 => block[COUNT..COUNT + 3].copy_from_slice(random.pick(&[b"007", b"998", b"0:8"])),
        4 => block[RECORD_NETWORK + random.below(2)] = random.pick(b"/: \x00"),
        5 => block[RECORD_INDEX + random.below(2)] = random.pick(b"\x1F\x7F\x00\xFF\x13\x16\x17"),
        6 => drop(block.pop()),
        7 => block.truncate(random.below(COUNT + 1)),
        8 => return b"00".to_vec(),
        9 => return cut_record(network),
        10 => return carried_block(random),
        _ => block[RECORD_INDEX + 1] = random.pick(b"\x1F\x7F"),
    }
    block
}

/// A record too short to be one, with nothing else wrong about the block.
fn cut_record(network: u8) -> Vec<u8> {
    let record = |length| record_of(b'1', network, 0, length);
    block_of(&[record(SHORTEST - 1), record(SHORTEST)])
}

/// Ten records of ten bytes and of network 10, with one of these numbers carried.
fn carried_block(random: &mut Random) -> Vec<u8> {
    let mut block = block_of(&vec![record_of(b'1', 10, 0, 10); 10]);
    let fields = [0..COUNT, COUNT..COUNT + 3, RECORD_NETWORK..RECORD_INDEX];
    let field = fields[random.below(fields.len())].clone();
    carry(&mut block[field]);
    block
}

/// Writes a number that ends in 0 with a ten in the last place, which is no digit:
/// reckoned without looking, it tells the same number.
fn carry(digits: &mut [u8]) {
    let last = digits.len() - 1;
    digits[last] = b'0' + 10;
    digits[last - 1] -= 1;
}

/// A command that is right but for bytes behind its end.
fn random_more(random: &mut Random) -> Vec<u8> {
    let mut command = random.pick(&[&b"OPN"[..], b"TLE", b"GTS00207"]).to_vec();
    match random.below(3) {
        0 => command.extend(b"000"),
        _ => {
            let length = 1 + random.below(8);
            command.extend(random_bytes(random, length, &TELLING_IN_PACKETS));
        }
    }
    command
}

/// A payload of no known name, or with too few bytes for one.
fn random_nameless(random: &mut Random) -> Vec<u8> {
    let length = random.pick(&[1, 1, 2, 2, 3, 6, 40]);
    match random.below(3) {
        0 => random_bytes(random, length, &TELLING_IN_PACKETS),
        1 => b"TLR"[..length.min(2)].to_vec(),
        _ => random
            .pick(&[b"CEX000", b"TLS000", b"ERR010", b"\x12OPN00"])
            .to_vec(),
    }
}

/// A network that is none: a byte next to the digits, or a ten in the last place.
fn wrong_network(random: &mut Random) -> Vec<u8> {
    let version = random.pick(&VERSIONS);
    let mut payload = match random.below(2) {
        0 => gts(10),
        _ => tli(10, &version),
    };
    match random.below(2) {
        0 => carry(&mut payload[6..8]),
        _ => payload[6 + random.below(2)] = random.pick(b"/: \x00\x13\x16\x17"),
    }
    payload
}

/// A version with a byte next to those that it may have, or far from them.
fn wrong_version(random: &mut Random, network: u8) -> Vec<u8> {
    let mut version = random.pick(&VERSIONS);
    version[random.below(10)] = random.pick(b"\x1F\x7F\x1F\x7F\x00\x13\x16\x17\x80\xFF");
    tli(network, &version)
}

/// A good block behind a length field that does not tell its length.
fn wrong_length_field(random: &mut Random, network: u8) -> Vec<u8> {
    let mut payload = tlr(&random_block(random, network));
    match random.below(4) {
        0 => payload[5] = b'0' + (payload[5] - b'0' + 1) % 10,
        1 => payload[3 + random.below(3)] = random.pick(b"/: \x00"),
        2 => payload.push(b'0'),
        _ => return longer_block(random, network),
    }
    payload
}

/// A block of 1,010 bytes, which no length field can tell. The last digits of the
/// number are right, or the field is as full as it can be.
fn longer_block(random: &mut Random, network: u8) -> Vec<u8> {
    let block = block_of(&vec![record_of(b'1', network, 0, 504); 2]);
    [random.pick(&[&b"TLR010"[..], b"TLR999"]), &block].concat()
}

#[cfg(test)]
mod tests {
    use super::{gts, random_bad_block, random_block, random_command, tli, tlr};
    use super::{random_wrong_command, VERSIONS};
    use crate::line::Line;
    use crate::packet::framed;
    use crate::random::Random;
    use crate::table::block::read_block;
    use std::collections::BTreeMap;

    #[test]
    fn payloads() {
        assert_eq!(gts(7), b"GTS00207");
        assert_eq!(tli(90, &VERSIONS[1]), b"TLI01290TABVER0008");
        assert_eq!(tlr(b"01008103AZ"), b"TLR01001008103AZ");
    }

    #[test]
    fn blocks_good_and_bad() {
        let mut random = Random::new(1);
        for _ in 0..2000 {
            assert!(read_block(&random_block(&mut random, 9)).is_some());
            assert!(read_block(&random_bad_block(&mut random, 9)).is_none());
        }
    }

    /// How often each reply comes to commands in and outside an open load.
    fn replies(mut payload: impl FnMut() -> Vec<u8>) -> BTreeMap<Vec<u8>, usize> {
        let mut counts = BTreeMap::new();
        let mut line = Line::fresh();
        for round in 0..2000 {
            if round % 4 == 0 {
                line.replies(&framed(&tli(9, &VERSIONS[1])));
            }
            let replies = line.replies(&framed(&payload()));
            let [reply] = &replies[..] else {
                panic!("{replies:?}")
            };
            let code = reply.get(2..8).unwrap_or(reply);
            *counts.entry(code.to_vec()).or_default() += 1;
        }
        counts
    }

    #[test]
    fn right_commands_are_not_malformed() {
        let mut random = Random::new(1);
        let counts = replies(|| random_command(&mut random, 9));
        for code in counts.keys() {
            assert!(!code.ends_with(b"011") && !code.starts_with(b"ERR"));
        }
        for code in [b"TLR010", b"TLE010", b"TLI000", b"TLI020", b"TLE000"] {
            assert!(counts[&code[..]] > 10, "{counts:?}");
        }
    }

    #[test]
    fn wrong_commands_mostly_are() {
        let mut random = Random::new(1);
        let counts = replies(|| random_wrong_command(&mut random));
        for code in [b"TLR011", b"TLI011", b"GTS011", b"ERR010"] {
            assert!(counts[&code[..]] > 10, "{counts:?}");
        }
        let malformed = counts[&b"ERR010"[..]] + counts[&b"TLR011"[..]];
        assert!(malformed > 800, "{counts:?}");
    }
}
