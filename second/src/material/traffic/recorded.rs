//! Traffic as a host makes it that loads tables all day: nothing goes wrong.

use crate::material::command::{gts, tli, tlr, VERSIONS};
use crate::material::limits::of_lengths;
use crate::material::table::{full_blocks, random_lengths};
use crate::packet::framed;
use crate::random::Random;

/// The records of each load, and their bytes: both networks fill a store together
/// but for a little.
const RECORDS: usize = 250;
const BYTES: usize = 16_000;

/// The same in every run, so that runs can be compared.
const SEED: u64 = 1;

/// The packets of so many loads, in turn for two networks. Each load is asked
/// after, and none is refused.
pub fn recorded_packets(loads: usize) -> Vec<Vec<u8>> {
    let sets = [1, 2].map(|network| (network, blocks(network)));
    let turns = sets.iter().cycle().take(loads).enumerate();
    turns
        .flat_map(|(turn, (network, blocks))| {
            let version = &VERSIONS[1 + turn % 3];
            let mut payloads = vec![b"OPN".to_vec(), gts(*network), tli(*network, version)];
            payloads.extend(blocks.iter().map(|block| tlr(block)));
            payloads.extend([b"TLE".to_vec(), gts(*network)]);
            payloads
        })
        .map(|payload| framed(&payload))
        .collect()
}

fn blocks(network: u8) -> Vec<Vec<u8>> {
    let mut random = Random::new(SEED + u64::from(network));
    let lengths = random_lengths(&mut random, RECORDS, BYTES);
    full_blocks(&of_lengths(&mut random, network, &lengths))
}

#[cfg(test)]
mod tests {
    use super::recorded_packets;
    use crate::line::Line;

    #[test]
    fn every_load_is_closed_and_becomes_live() {
        let mut line = Line::fresh();
        let packets = recorded_packets(6);
        let mut closed = 0;
        for packet in &packets {
            let replies = line.replies(packet);
            let [reply] = &replies[..] else {
                panic!("{replies:?}")
            };
            let code = &reply[2..8];
            assert!(code.ends_with(b"000") || code == b"TLI020", "{code:?}");
            closed += usize::from(code == b"TLE000");
        }
        assert_eq!(closed, 6);
        let live = line.device.tables.live;
        assert_eq!((live.records, live.used), (500, 32_000));
        assert_eq!(line.device.tables.versions[1], *b" ~ ~ ~ ~ ~");
        assert_eq!(line.device.tables.versions[2], *b"XEMVST0003");
    }
}
