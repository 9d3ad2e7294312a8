//! A load, from the TLI that opens it to the TLE that closes it.
//!
//! The scope paper, section Commands. That a load is over is remembered, and not
//! the records that made it so: they are past a limit by themselves, so no set
//! with them can be within it.

use super::record::Record;
use super::store::within_limits;

/// An open load. The version that TLI named, and whether a TLR has been answered
/// 000, matter to the versions alone.
#[derive(Clone, Debug, PartialEq)]
pub struct Load {
    /// The one that TLI named.
    pub network: u8,
    /// The records that stand in the loading store.
    pub kept: Vec<Record>,
    /// Whether a record that was taken could not be kept.
    pub over: bool,
}

impl Load {
    pub fn open(network: u8) -> Self {
        Load {
            network,
            kept: Vec::new(),
            over: false,
        }
    }

    /// Adds the records of a good block. Those skipped count for nothing. The
    /// first that passes a limit is not kept, nor is any after it, small or not.
    pub fn add(&mut self, records: Vec<Record>) {
        let network = self.network;
        for record in records.into_iter().filter(|one| one.is_taken(network)) {
            if self.over {
                return;
            }
            self.kept.push(record);
            if !within_limits(&self.kept) {
                self.kept.pop();
                self.over = true;
            }
        }
    }
}

/// Closes the load: the new live set is what stays of the old one, in order, and
/// then the load's records. False (TLE021) where that would pass a limit, and
/// then the live set is as it was. The load is gone either way.
pub fn close(live: &mut Vec<Record>, load: Load) -> bool {
    let staying = live.iter().filter(|record| !record.is_named(load.network));
    let set: Vec<Record> = staying.cloned().chain(load.kept).collect();
    let done = !load.over && within_limits(&set);
    if done {
        *live = set;
    }
    done
}

#[cfg(test)]
mod tests {
    use super::{close, Load};
    use crate::material::table::record_of;
    use crate::table::record::{list, Record};
    use crate::table::store::used_by;

    /// A record of kind 1, told from others by its number.
    fn record(network: u8, number: usize, length: usize) -> Record {
        made(&record_of(b'1', network, number, length))
    }

    fn made(bytes: &[u8]) -> Record {
        let mut records = list(bytes).expect("a good record");
        records.pop().expect("one record")
    }

    /// That many records of one length.
    fn records(network: u8, count: usize, length: usize) -> Vec<Record> {
        let numbers = 0..count;
        numbers
            .map(|number| record(network, number, length))
            .collect()
    }

    /// An open load with these records added.
    fn loaded(network: u8, records: Vec<Record>) -> Load {
        let mut load = Load::open(network);
        load.add(records);
        load
    }

    /// Records that come to exactly 32,768 bytes, and one byte more with the
    /// other last one.
    fn full(network: u8, last: usize) -> Vec<Record> {
        let mut full = records(network, 32, 997);
        full.push(record(network, 32, last));
        full
    }

    #[test]
    fn a_load_opens_empty() {
        let load = Load::open(7);
        assert_eq!((load.network, load.kept.len(), load.over), (7, 0, false));
    }

    #[test]
    fn blocks_are_kept_one_after_another() {
        let mut load = loaded(7, vec![record(7, 1, 8), record(7, 2, 20)]);
        load.add(vec![record(7, 3, 9)]);
        let wanted = vec![record(7, 1, 8), record(7, 2, 20), record(7, 3, 9)];
        assert_eq!((load.kept, load.over), (wanted, false));
    }

    #[test]
    fn equal_records_are_all_kept() {
        let mut load = loaded(7, vec![record(7, 1, 8), record(7, 1, 8)]);
        load.add(vec![record(7, 1, 8)]);
        assert_eq!(load.kept, vec![record(7, 1, 8); 3]);
    }

    /// Each kind and network between records that are taken.
    #[test]
    fn skipped_records_are_passed_over() {
        let all: Vec<Record> = (0..=255)
            .flat_map(|kind| [0, 7, 8].map(|network| made(&record_of(kind, network, 1, 9))))
            .collect();
        for (network, kept) in [(7, vec![7; 3]), (8, vec![8; 3]), (9, vec![])] {
            let load = loaded(network, all.clone());
            let networks: Vec<u8> = load.kept.iter().map(|one| one.network).collect();
            assert_eq!(networks, kept, "{network}");
            assert!(!load.over);
        }
        let load = loaded(0, all);
        let fields = load.kept.iter().map(|one| (one.kind, one.network));
        let wanted = [
            (b'1', 7),
            (b'1', 8),
            (b'2', 7),
            (b'2', 8),
            (b'3', 7),
            (b'3', 8),
        ];
        assert_eq!(fields.collect::<Vec<_>>(), wanted);
    }

    #[test]
    fn the_513th_record_is_not_kept() {
        let mut load = loaded(7, records(7, 512, 8));
        assert_eq!((load.kept.len(), load.over), (512, false));
        load.add(vec![record(7, 0, 8)]);
        assert_eq!((load.kept.len(), load.over), (512, true));
        let load = loaded(7, records(7, 600, 8));
        assert_eq!((load.kept, load.over), (records(7, 512, 8), true));
    }

    #[test]
    fn the_byte_past_32768_is_not_kept() {
        let load = loaded(7, full(7, 864));
        assert_eq!((used_by(&load.kept), load.over), (32_768, false));
        let load = loaded(7, full(7, 865));
        assert_eq!((load.kept, load.over), (records(7, 32, 997), true));
        let load = loaded(7, records(7, 512, 64));
        assert_eq!((used_by(&load.kept), load.over), (32_768, false));
    }

    /// A record that would still fit comes too late.
    #[test]
    fn nothing_is_kept_after_the_first_that_passes_a_limit() {
        let mut load = loaded(7, full(7, 865));
        load.add(vec![record(7, 1, 8)]);
        assert_eq!((load.kept, load.over), (records(7, 32, 997), true));
        let late = [full(7, 865), records(7, 3, 8)].concat();
        let load = loaded(7, late);
        assert_eq!((load.kept, load.over), (records(7, 32, 997), true));
    }

    #[test]
    fn skipped_records_pass_no_limit() {
        let skipped = [
            records(0, 600, 8),
            records(8, 600, 997),
            vec![made(&record_of(b'4', 7, 1, 997)); 600],
        ];
        let mut load = loaded(7, skipped.concat());
        assert_eq!(load, Load::open(7));
        load.add(records(7, 512, 64));
        load.add(skipped.concat());
        assert_eq!((load.kept, load.over), (records(7, 512, 64), false));
    }

    #[test]
    fn the_named_network_gives_way_and_the_others_stay_in_order() {
        let old = [7, 8, 9, 8, 7].map(|network| record(network, 1, 8));
        let mut live = old.to_vec();
        assert!(close(&mut live, loaded(8, records(8, 2, 10))));
        let staying = vec![record(7, 1, 8), record(9, 1, 8), record(7, 1, 8)];
        assert_eq!(live, [staying, records(8, 2, 10)].concat());
    }

    #[test]
    fn network_00_names_all() {
        let mut live = [7, 8, 99, 1].map(|network| record(network, 1, 8)).to_vec();
        let new = [3, 7].map(|network| record(network, 2, 8)).to_vec();
        assert!(close(&mut live, loaded(0, new.clone())));
        assert_eq!(live, new);
    }

    #[test]
    fn a_load_without_records_leaves_the_named_ones_gone() {
        let old = [7, 8, 7].map(|network| record(network, 1, 8)).to_vec();
        for (network, wanted) in [(7, vec![record(8, 1, 8)]), (9, old.clone()), (0, vec![])] {
            let mut live = old.clone();
            assert!(close(&mut live, Load::open(network)));
            assert_eq!(live, wanted, "{network}");
        }
    }

    /// The scope paper, section Sample line traffic, over one block and over
    /// several.
    #[test]
    fn the_papers_sample_of_512_and_513_records() {
        for (count, done) in [(512, true), (513, false)] {
            let mut load = Load::open(0);
            for part in records(7, count, 8).chunks(99) {
                load.add(part.to_vec());
            }
            let mut live = vec![record(8, 1, 8)];
            assert_eq!(close(&mut live, load), done, "{count}");
            let wanted = match done {
                true => records(7, 512, 8),
                false => vec![record(8, 1, 8)],
            };
            assert_eq!(live, wanted, "{count}");
        }
    }

    /// Neither part passes a limit, but both together may.
    #[test]
    fn staying_records_count_toward_the_limits() {
        for (staying, new, done) in [
            (records(8, 300, 8), records(7, 212, 8), true),
            (records(8, 300, 8), records(7, 213, 8), false),
            (records(8, 511, 8), records(7, 1, 8), true),
            (records(8, 512, 8), records(7, 1, 8), false),
            (records(8, 32, 997), records(7, 1, 864), true),
            (records(8, 32, 997), records(7, 1, 865), false),
            (full(8, 864), vec![], true),
            (full(8, 864), records(7, 1, 8), false),
        ] {
            let mut live = staying.clone();
            let load = loaded(7, new.clone());
            assert!(!load.over);
            assert_eq!(close(&mut live, load), done);
            let wanted = match done {
                true => [staying, new].concat(),
                false => staying,
            };
            assert_eq!(live, wanted);
        }
    }

    /// The old set and the load may come to more than a limit as long as the new
    /// set does not.
    #[test]
    fn records_that_give_way_do_not_count() {
        for new in [records(7, 512, 64), full(7, 864), records(7, 512, 8)] {
            for network in [0, 7] {
                let mut live = records(7, 512, 64);
                assert!(close(&mut live, loaded(network, new.clone())));
                assert_eq!(live, new);
            }
        }
    }

    /// However little was kept: the mark stands for what was not.
    #[test]
    fn a_load_that_is_over_is_not_stored() {
        for kept in [records(7, 512, 8), records(7, 1, 8), vec![]] {
            for network in [0, 7] {
                let old = [7, 8].map(|network| record(network, 5, 20)).to_vec();
                let mut live = old.clone();
                let load = Load {
                    network,
                    kept: kept.clone(),
                    over: true,
                };
                assert!(!close(&mut live, load));
                assert_eq!(live, old);
            }
        }
    }

    #[test]
    fn loads_one_after_another() {
        let mut live = Vec::new();
        for network in [1, 2, 3, 2] {
            let load = loaded(network, records(network, usize::from(network), 8));
            assert!(close(&mut live, load));
        }
        let wanted = [records(1, 1, 8), records(3, 3, 8), records(2, 2, 8)];
        assert_eq!(live, wanted.concat());
        assert!(close(&mut live, Load::open(3)));
        assert_eq!(live, [records(1, 1, 8), records(2, 2, 8)].concat());
    }
}
