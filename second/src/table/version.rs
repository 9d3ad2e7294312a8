//! The versions, one for each network and one for all of them together.
//!
//! The scope paper, section Commands: they change where a load is closed with
//! TLE000, and only there.

use super::ALL;

/// The bytes of a version.
pub const LENGTH: usize = 10;

pub type Version = [u8; LENGTH];

/// By network, "00" first.
pub type Versions = [Version; 100];

/// What a network has that nothing was loaded for.
pub const NONE: Version = *b"0000000000";

/// The versions of a fresh device.
pub const FRESH: Versions = [NONE; 100];

/// Whether all are bytes that a version may have. It looks at every one: a walk
/// that may be left at any of them is one that the compiler takes byte by byte.
pub fn is_printable(bytes: &[u8]) -> bool {
    let printable = |byte: &u8| matches!(byte, 0x20..=0x7E);
    bytes.iter().fold(true, |all, byte| all & printable(byte))
}

/// The version that a load brings: the one that TLI named, if a TLR has been
/// answered 000, whatever that one added.
pub fn brought(named: Version, answered: bool) -> Version {
    match answered {
        true => named,
        false => NONE,
    }
}

/// Brings the versions up to date where a load for that network was closed. One
/// network loaded by itself leaves no version that all of them share.
pub fn closed(versions: &mut Versions, network: u8, version: Version) {
    match network {
        ALL => versions.fill(version),
        _ => {
            versions[usize::from(network)] = version;
            versions[usize::from(ALL)] = NONE;
        }
    }
}

#[cfg(test)]
mod tests {
    use super::{brought, closed, is_printable, FRESH};

    const A: [u8; 10] = *b"TABVER0008";
    const B: [u8; 10] = *b" ~ ~ ~ ~ ~";

    #[test]
    fn a_fresh_device_has_100_versions_of_ten_0_digits() {
        assert_eq!(FRESH.concat(), vec![b'0'; 1000]);
    }

    #[test]
    fn every_byte_in_every_place() {
        for (place, byte) in (0..10).flat_map(|place| (0..=255).map(move |byte| (place, byte))) {
            let mut version = A;
            version[place] = byte;
            let printable = (0x20..=0x7E).contains(&byte);
            assert_eq!(is_printable(&version), printable, "{place} {byte:02X}");
        }
    }

    #[test]
    fn without_an_answered_tlr_the_version_is_ten_0_digits() {
        assert_eq!(brought(A, true), A);
        assert_eq!(brought(A, false), [b'0'; 10]);
    }

    #[test]
    fn network_00_sets_all_versions() {
        let mut versions = FRESH;
        closed(&mut versions, 7, B);
        closed(&mut versions, 0, A);
        assert_eq!(versions, [A; 100]);
    }

    #[test]
    fn another_network_sets_its_own_and_clears_00() {
        for network in 1..=99 {
            let mut versions = [A; 100];
            closed(&mut versions, network, B);
            for (place, version) in versions.iter().enumerate() {
                let wanted = match place {
                    0 => *b"0000000000",
                    _ if place == usize::from(network) => B,
                    _ => A,
                };
                assert_eq!(*version, wanted, "{network} {place}");
            }
        }
    }

    #[test]
    fn loads_without_records_clear_what_they_name() {
        let mut versions = [A; 100];
        closed(&mut versions, 7, brought(B, false));
        assert_eq!(versions[7], [b'0'; 10]);
        assert_eq!(versions[8], A);
        closed(&mut versions, 0, brought(B, false));
        assert_eq!(versions, FRESH);
    }
}
