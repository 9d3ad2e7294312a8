//! What matters to the packet calls.

use crate::random::Random;

/// The values that decide how a packet reads: those that are substituted, the
/// second bytes of their pairs, and two plain ones.
pub const TELLING: [u8; 8] = [0x13, 0x16, 0x17, 0x33, 0x36, 0x37, 0x00, 0x4F];

/// Lengths at which the answer of the scope paper, section Packet, changes, and
/// their neighbours.
const EDGES: [usize; 7] = [0, 1, 2, 2047, 2048, 2049, 2050];

/// A payload length: as often one of the edges as any up to a little past the
/// largest.
pub fn random_length(random: &mut Random) -> usize {
    match random.below(3) {
        0 => random.pick(&EDGES),
        1 => random.below(64),
        _ => random.below(2100),
    }
}
