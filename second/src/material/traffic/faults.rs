//! Packets that a bad line has changed.

use super::Traffic;
use crate::material::command::{random_command, random_wrong_command};
use crate::material::packet::TELLING;
use crate::material::random_damage;
use crate::material::table::random_network;
use crate::packet::framed;

impl Traffic<'_> {
    /// A packet of some command, damaged. Where its end is lost, the next packet
    /// is drawn into it.
    pub fn damaged_packet(&mut self) {
        let network = random_network(self.random);
        let payload = match self.random.below(4) {
            0 => random_wrong_command(self.random),
            _ => random_command(self.random, network),
        };
        self.damaged(&payload);
    }

    /// What goes wrong before a packet is sent again: the same packet damaged or
    /// cut off, noise, or control bytes.
    pub fn fault(&mut self, payload: &[u8]) {
        match self.random.below(4) {
            0 => self.damaged(payload),
            1 => {
                let packet = framed(payload);
                let length = self.random.below(packet.len());
                self.line.extend(&packet[..length]);
            }
            2 => self.noise(),
            _ => self.control_bytes(),
        }
    }

    fn damaged(&mut self, payload: &[u8]) {
        let mut packet = framed(payload);
        let place = self.random.below(packet.len());
        match self.random.below(6) {
            0 => packet[place] ^= 1 << self.random.below(8),
            1 => drop(packet.remove(place)),
            2 => packet.insert(place, packet[place]),
            3 => {
                let check = packet.len() - 2;
                packet[check..].reverse();
            }
            4 => {
                let run = self.control_run();
                packet.splice(place..place, run);
            }
            _ => packet = random_damage(self.random, &packet, &TELLING),
        }
        self.line.extend(packet);
    }
}
