//! The versions after a load.

use super::ROUNDS;
use compare::alike::table as alike;
use compare::seed;
use second::material::table::random_network;
use second::random::Random;
use second::table::version::{self, FRESH};

#[test]
fn versions_of_every_network() {
    for start in [FRESH, [*b"TABVER0008"; 100]] {
        for network in 0..=99 {
            for version in [*b"XEMVST0003", version::NONE, *b" ~ ~ ~ ~ ~"] {
                let mut versions = start;
                alike::versions_after(&mut versions, network, version);
            }
        }
    }
}

#[test]
fn random_versions() {
    let mut random = Random::new(seed::told("random_versions"));
    let mut versions = FRESH;
    for _ in 0..ROUNDS {
        let network = match random.below(4) {
            0 => random_network(&mut random),
            _ => random.below(100) as u8,
        };
        let mut version = [0; 10];
        version.fill_with(|| 0x20 + random.below(0x7F - 0x20) as u8);
        alike::versions_after(&mut versions, network, version);
    }
}

#[test]
fn versions_of_other_lengths() {
    let version = b"TABVER0008TABVER0008";
    for network in [0, 1, 99] {
        for length in [0, 1, 9, 10, 990, 999, 1001, 1010, 2000] {
            alike::versions_left_alone(length, network, &version[..10]);
        }
        for length in (0..=20).filter(|length| *length != 10) {
            alike::versions_left_alone(1000, network, &version[..length]);
        }
    }
}
