//! Bytes in odd places, each of which the scope paper, section Reception, has a
//! rule for.

use super::{with_check_of, Traffic};
use crate::check::check_of;
use crate::device::{CAN, NAK};
use crate::material::command::random_command;
use crate::material::packet::TELLING;
use crate::material::random_bytes;
use crate::packet::{framed, DC3, ETB, LARGEST_PAYLOAD, SYN};

/// Payload lengths at which the answer changes, and some far past them.
const LENGTHS: [usize; 8] = [1, 2, 2047, 2048, 2048, 2049, 2050, 5000];

impl Traffic<'_> {
    /// NAK and CAN after a command, or after nothing. Of the NAKs there are often
    /// more than are answered, and sometimes a bad packet among them, which leaves
    /// the held response as it is.
    pub fn control_bytes(&mut self) {
        if self.random.below(2) == 0 {
            let command = random_command(self.random, 0);
            self.line.extend(framed(&command));
        }
        let run = self.control_run();
        self.line.extend(run);
        if self.random.below(2) == 0 {
            self.line.extend(with_check_of(&framed(b"OPN"), b"TLE"));
            let run = self.control_run();
            self.line.extend(run);
        }
    }

    pub fn control_run(&mut self) -> Vec<u8> {
        let length = 1 + self.random.below(6);
        let share = self.random.pick(&[0, 1, 8]);
        (0..length)
            .map(|_| match self.random.below(8) < share {
                true => self.random.pick(&[CAN, 0x06, 0x04]),
                false => NAK,
            })
            .collect()
    }

    /// A payload as long as can be, or longer. What stands in it is sometimes the
    /// start of a command, and its check sometimes that of the bytes which still
    /// have a place in the store.
    pub fn payload_about_the_largest(&mut self) {
        let length = self.random.pick(&LENGTHS);
        let mut payload = random_bytes(self.random, length, &TELLING);
        match self.random.below(4) {
            0 => payload = vec![self.random.pick(&[DC3, SYN, ETB, b'x']); length],
            1 if length >= LARGEST_PAYLOAD - 1 => payload[..6].copy_from_slice(b"TLR999"),
            _ => {}
        }
        let checked = match self.random.below(2) {
            0 => &payload,
            _ => &payload[..length.min(LARGEST_PAYLOAD)],
        };
        self.line.extend(with_check_of(&framed(&payload), checked));
    }

    /// 13h and any byte at all, somewhere in the data. The check is that of the
    /// payload without them, with both, with the second only, or with what the
    /// second would be in a pair.
    pub fn bad_pair(&mut self) {
        let command = random_command(self.random, 0);
        let byte = match self.random.below(2) {
            0 => self.random.byte(),
            _ => self
                .random
                .pick(&[0x13, 0x16, 0x17, 0x32, 0x34, 0x35, 0x38, 0x15, 0x18]),
        };
        let place = self.random.below(command.len() + 1);
        let (before, after) = command.split_at(place);
        let meant: &[u8] = match self.random.below(4) {
            0 => &[],
            1 => &[DC3, byte],
            2 => &[byte],
            _ => &[byte.wrapping_sub(0x20)],
        };
        let start = framed(before);
        let start = &start[..start.len() - 3];
        let packet = [start, &[DC3, byte], &framed(after)[1..]].concat();
        let checked = [before, meant, after].concat();
        self.line.extend(with_check_of(&packet, &checked));
    }

    /// SYN and ETB where no packet has them.
    pub fn odd_frame(&mut self) {
        let command = random_command(self.random, 0);
        let packet = framed(&command);
        let place = self.random.below(packet.len() + 1);
        let (before, after) = packet.split_at(place);
        let [high, low] = check_of(&[]).to_be_bytes();
        let (data, end) = packet.split_at(packet.len() - 3);
        let bytes = match self.random.below(9) {
            0 => [before, &[SYN], after].concat(),
            1 => [before, &[ETB], after].concat(),
            2 => [before, &[DC3, SYN], after].concat(),
            3 => [before, &[DC3, ETB], after].concat(),
            4 => [before, &packet].concat(),
            5 => [&[SYN, ETB, high, low], &packet[..]].concat(),
            6 => [&[SYN, SYN, DC3], &packet[..]].concat(),
            7 => [data, &[DC3], end].concat(),
            _ => [&[ETB, ETB, DC3], &packet[..], &[ETB, SYN]].concat(),
        };
        self.line.extend(bytes);
    }
}
