//! Sets of records about the limits of a store.

use super::table::{random_lengths, random_record, KINDS};
use super::table::{random_skipped, random_skipped_by_all};
use crate::random::Random;
use crate::table::record::SHORTEST;
use crate::table::store::{MOST_RECORDS, SIZE};

/// The network whose records stay, and the one that is loaded.
const STAYING: u8 = 7;
const LOADED: u8 = 8;

/// Two loads, of which the second comes about a limit.
pub struct Loads {
    /// Records for a load of all networks, which can be closed, with some between
    /// them that are skipped.
    pub live: Vec<Vec<u8>>,
    /// The network of the second load.
    pub network: u8,
    /// Its records, with some between them that are skipped.
    pub new: Vec<Vec<u8>>,
    /// Whether it can be closed as well.
    pub within: bool,
}

/// How many records a set has, and how many bytes: at a limit, one under it or
/// one past it, by the records, by the bytes or by both.
pub fn about_a_limit(random: &mut Random) -> (usize, usize) {
    let records = MOST_RECORDS - 1 + random.below(3);
    let bytes = SIZE - 1 + random.below(3);
    let least = records * SHORTEST;
    match random.below(3) {
        0 => (records, least + random.below(SIZE - least)),
        1 => (33 + random.below(MOST_RECORDS - 33), bytes),
        _ => (records, bytes),
    }
}

/// Live records of one network, between which records of another give way to a
/// load. What stays and the load come to a limit together, and mostly not one
/// without the other.
pub fn random_loads(random: &mut Random) -> Loads {
    let (records, bytes) = about_a_limit(random);
    loads_of(random, records, bytes)
}

/// As `random_loads`, about the limit of records only and with few bytes.
pub fn random_short_loads(random: &mut Random) -> Loads {
    let records = MOST_RECORDS - 1 + random.below(3);
    let bytes = records * SHORTEST + random.below(200);
    loads_of(random, records, bytes)
}

fn loads_of(random: &mut Random, records: usize, bytes: usize) -> Loads {
    let lengths = random_lengths(random, records, bytes);
    let staying = match random.below(4) {
        0 => 0,
        _ => random.below(records),
    };
    let (staying, new) = lengths.split_at(staying);
    let room = (SIZE - staying.iter().sum::<usize>()) / SHORTEST;
    let way = random.below(room.min(MOST_RECORDS - staying.len()) + 1);
    let mut live = of_lengths(random, STAYING, staying);
    let giving_way = of_lengths(random, LOADED, &vec![SHORTEST; way]);
    strew(random, &mut live, giving_way);
    strew_some(random, &mut live, random_skipped_by_all);
    let mut new = of_lengths(random, LOADED, new);
    strew_some(random, &mut new, |random| random_skipped(random, LOADED));
    Loads {
        live,
        network: LOADED,
        new,
        within: records <= MOST_RECORDS && bytes <= SIZE,
    }
}

/// Records of random kinds and of these lengths.
pub fn of_lengths(random: &mut Random, network: u8, lengths: &[usize]) -> Vec<Vec<u8>> {
    let record = |length: &usize| {
        let kind = random.pick(&KINDS);
        random_record(random, kind, network, *length)
    };
    lengths.iter().map(record).collect()
}

/// Puts each of these at a random place among the others, whose order stays.
fn strew(random: &mut Random, among: &mut Vec<Vec<u8>>, these: Vec<Vec<u8>>) {
    for one in these {
        among.insert(random.below(among.len() + 1), one);
    }
}

/// Strews up to some of what is made. The last of them may well come after
/// everything else, where the load is as full as it gets.
fn strew_some(
    random: &mut Random,
    among: &mut Vec<Vec<u8>>,
    mut make: impl FnMut(&mut Random) -> Vec<u8>,
) {
    let count = random.below(20);
    let these = (0..count).map(|_| make(random)).collect();
    strew(random, among, these);
    if random.below(2) == 0 {
        among.push(make(random));
    }
}

#[cfg(test)]
mod tests {
    use super::{random_loads, random_short_loads, Loads};
    use crate::random::Random;
    use crate::table::load::{close, Load};
    use crate::table::record::list;

    fn closes(
        live: &mut Vec<crate::table::record::Record>,
        network: u8,
        records: &[Vec<u8>],
    ) -> bool {
        let mut load = Load::open(network);
        load.add(list(&records.concat()).expect("good records"));
        close(live, load)
    }

    #[test]
    fn the_second_load_can_be_closed_where_it_says_so() {
        let mut random = Random::new(1);
        let mut seen = [0, 0];
        for round in 0..200 {
            let Loads {
                live,
                network,
                new,
                within,
            } = match round % 2 {
                0 => random_loads(&mut random),
                _ => random_short_loads(&mut random),
            };
            let mut set = Vec::new();
            assert!(closes(&mut set, 0, &live));
            assert_eq!(closes(&mut set, network, &new), within);
            seen[usize::from(within)] += 1;
        }
        assert!(seen.iter().all(|count| *count > 20), "{seen:?}");
    }
}
