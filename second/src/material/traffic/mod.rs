//! Traffic for a whole line: what a host sends, and what a bad line makes of it.

mod faults;
mod loads;
mod odd;
mod recorded;

pub use recorded::recorded_packets;

use super::command::{random_command, random_wrong_command};
use super::random_bytes;
use super::table::random_network;
use crate::check::check_of;
use crate::packet::framed;
use crate::random::Random;

/// What decides how bytes between packets are taken: those with a meaning to an
/// idle device, those that it sends itself, and those of pairs.
const TELLING: [u8; 10] = [0x04, 0x06, 0x13, 0x15, 0x16, 0x17, 0x18, 0x33, 0x36, 0x4F];

/// How long the loads of a traffic may be.
#[derive(Clone, Copy, Debug, PartialEq)]
pub enum Loads {
    /// Up to what a store cannot hold, in either way.
    Any,
    /// Of few bytes. A load past 512 records still comes up.
    Short,
}

/// Traffic of at least that many bytes.
pub fn random_traffic(random: &mut Random, length: usize, loads: Loads) -> Vec<u8> {
    let mut traffic = Traffic {
        random,
        loads,
        trouble: 0,
        line: Vec::new(),
    };
    while traffic.line.len() < length {
        traffic.episode();
    }
    traffic.line
}

/// Traffic as it grows.
struct Traffic<'a> {
    random: &'a mut Random,
    loads: Loads,
    /// How many of 64 packets have trouble around them.
    trouble: usize,
    line: Vec<u8>,
}

impl Traffic<'_> {
    fn episode(&mut self) {
        self.trouble = self.random.pick(&[0, 0, 1, 4, 16]);
        match self.random.below(16) {
            0..=4 => self.load(),
            5 => self.loads_about_a_limit(),
            6..=7 => self.commands(),
            8..=9 => self.wrong_commands(),
            10 => self.payload_about_the_largest(),
            11 => self.bad_pair(),
            12 => self.odd_frame(),
            13 => self.control_bytes(),
            14 => self.damaged_packet(),
            _ => self.noise(),
        }
    }

    /// A packet, and maybe trouble before or behind it. What comes before is
    /// mostly something from which the packet's SYN starts afresh.
    fn send(&mut self, payload: &[u8]) {
        if self.is_troubled() {
            self.fault(payload);
        }
        self.line.extend(framed(payload));
        if self.is_troubled() {
            self.control_bytes();
        }
    }

    fn is_troubled(&mut self) -> bool {
        self.random.below(64) < self.trouble
    }

    fn commands(&mut self) {
        for _ in 0..1 + self.random.below(12) {
            let network = random_network(self.random);
            let command = random_command(self.random, network);
            self.send(&command);
        }
    }

    fn wrong_commands(&mut self) {
        for _ in 0..1 + self.random.below(12) {
            let command = random_wrong_command(self.random);
            self.send(&command);
        }
    }

    /// Bytes of no packet, or only by chance.
    fn noise(&mut self) {
        let length = self.random.below(40);
        let noise = random_bytes(self.random, length, &TELLING);
        self.line.extend(noise);
    }
}

/// The packet with the check of that payload in place of its own.
fn with_check_of(packet: &[u8], payload: &[u8]) -> Vec<u8> {
    let check = check_of(payload).to_be_bytes();
    [&packet[..packet.len() - 2], &check].concat()
}
