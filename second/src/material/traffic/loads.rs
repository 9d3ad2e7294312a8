//! Whole loads, from TLI to TLE.

use super::{with_check_of, Loads, Traffic};
use crate::material::command::{gts, tli, tlr, VERSIONS};
use crate::material::command::{random_bad_block, random_block, random_command};
use crate::material::limits::{of_lengths, random_loads, random_short_loads};
use crate::material::table::{full_blocks, random_blocks, random_load, random_network};
use crate::packet::{framed, DC3, ETB, SYN};
use crate::table::record::SHORTEST;
use crate::table::store::MOST_RECORDS;
use crate::table::ALL;

/// The records of most short loads.
const FEW: usize = 20;

impl Traffic<'_> {
    /// A load of random records, whatever is live, and mostly what came of it.
    pub fn load(&mut self) {
        let network = random_network(self.random);
        let mut records = match self.loads {
            Loads::Any => random_load(self.random, network),
            Loads::Short => self.short_load(network),
        };
        self.substitute(&mut records);
        let blocks = random_blocks(self.random, &records);
        self.send_load(network, &blocks);
    }

    /// A load that can be closed, and then one that is about a limit together
    /// with what stays of it.
    pub fn loads_about_a_limit(&mut self) {
        let loads = match self.loads {
            Loads::Any => random_loads(self.random),
            Loads::Short => random_short_loads(self.random),
        };
        self.trouble = 0;
        self.send_whole_load(ALL, &full_blocks(&loads.live));
        let blocks = random_blocks(self.random, &loads.new);
        self.send_whole_load(loads.network, &blocks);
        self.send(&gts(loads.network));
    }

    /// With nothing between that may change what the load comes to.
    fn send_whole_load(&mut self, network: u8, blocks: &[Vec<u8>]) {
        let version = self.random.pick(&VERSIONS);
        self.send(&tli(network, &version));
        for block in blocks {
            self.send(&tlr(block));
            if self.random.below(6) == 0 {
                self.nothing_new(network);
            }
        }
        self.send(b"TLE");
    }

    /// With other commands between. One in eight is left open.
    fn send_load(&mut self, network: u8, blocks: &[Vec<u8>]) {
        let version = self.random.pick(&VERSIONS);
        self.send(&tli(network, &version));
        if self.random.below(4) == 0 {
            self.between(network);
        }
        for block in blocks {
            self.send(&tlr(block));
            if self.random.below(6) == 0 {
                self.between(network);
            }
        }
        if self.random.below(8) > 0 {
            self.send(b"TLE");
            self.send(&gts(network));
            self.send(&gts(ALL));
        }
    }

    /// What leaves the load as it is, and, rarely, a command that may not.
    fn between(&mut self, network: u8) {
        match self.random.below(8) {
            0 => {
                let command = random_command(self.random, network);
                self.send(&command);
            }
            _ => self.nothing_new(network),
        }
    }

    /// What leaves an open load as it is.
    fn nothing_new(&mut self, network: u8) {
        match self.random.below(8) {
            0 => self.send(b"OPN"),
            1 => self.send(&gts(network)),
            2 => self.send(b"TLI012"),
            3 => self.send(b"TLE000"),
            4 => {
                let run = self.control_run();
                self.line.extend(run);
            }
            5 => {
                let block = random_block(self.random, network);
                let packet = framed(&tlr(&block));
                self.line.extend(with_check_of(&packet, &block));
            }
            _ => {
                let block = random_bad_block(self.random, network);
                self.send(&tlr(&block));
            }
        }
    }

    /// A few records, or about as many as there may be, of few bytes.
    fn short_load(&mut self, network: u8) -> Vec<Vec<u8>> {
        if self.random.below(8) == 0 {
            let count = MOST_RECORDS - 8 + self.random.below(24);
            let owner = network.max(1);
            return of_lengths(self.random, owner, &vec![SHORTEST + 1; count]);
        }
        let mut records = random_load(self.random, network);
        records.truncate(FEW);
        records
    }

    /// Makes free bytes of some records such as are sent in pairs.
    fn substitute(&mut self, records: &mut [Vec<u8>]) {
        for record in records.iter_mut().filter(|record| record.len() > SHORTEST) {
            for _ in 0..self.random.below(4) {
                let place = SHORTEST + self.random.below(record.len() - SHORTEST);
                record[place] = self.random.pick(&[DC3, SYN, ETB]);
            }
        }
    }
}
