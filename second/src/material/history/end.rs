//! Ends of histories that leave a device as traffic which is broken off anywhere
//! hardly ever does.

use super::random_place;
use crate::device::NAK;
use crate::material::command::{random_command, tli, tlr, VERSIONS};
use crate::material::limits::of_lengths;
use crate::material::table::full_blocks;
use crate::packet::{framed, DC3};
use crate::random::Random;
use crate::table::record::SHORTEST;
use crate::table::store::MOST_RECORDS;

/// A spoiled packet, a response that was sent again, or an open load that is over.
pub fn random_end(random: &mut Random) -> Vec<u8> {
    match random.below(3) {
        0 => spoiled(random),
        1 => sent_again(random),
        _ => over(random),
    }
}

/// A packet with a bad pair at its start, up to anywhere behind that.
fn spoiled(random: &mut Random) -> Vec<u8> {
    let mut packet = framed(&random_command(random, 0));
    packet.splice(1..1, [DC3, random.pick(b"-\x00\x13\x18")]);
    let last = packet.len() - 1;
    let end = 3 + random_place(random, &packet[3..last], last - 3);
    packet.truncate(end);
    packet
}

fn sent_again(random: &mut Random) -> Vec<u8> {
    let mut bytes = framed(&random_command(random, 0));
    bytes.resize(bytes.len() + 1 + random.below(4), NAK);
    bytes
}

/// One by its records, which takes fewer bytes than one by its bytes.
fn over(random: &mut Random) -> Vec<u8> {
    let network = 1 + random.below(99) as u8;
    let count = MOST_RECORDS + 1 + random.below(8);
    let records = of_lengths(random, network, &vec![SHORTEST; count]);
    let mut bytes = framed(&tli(network, &random.pick(&VERSIONS)));
    for block in full_blocks(&records) {
        bytes.extend(framed(&tlr(&block)));
    }
    bytes
}
