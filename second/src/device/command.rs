//! Which command a payload is.
//!
//! The scope paper, section Commands: a name of three bytes, and behind it the
//! layout that the name asks for.

use crate::digits;
use crate::table::version::{self, Version};

/// The digits of a length field.
const LENGTH: usize = 3;

#[derive(Clone, Copy, Debug, PartialEq)]
pub enum Command<'a> {
    Opn,
    /// With the network.
    Gts(u8),
    /// With the network and the version.
    Tli(u8, Version),
    /// With the block that its length field announces, or none where that field
    /// is wrong. What is in the block is not looked at.
    Tlr(Option<&'a [u8]>),
    Tle,
    /// GTS or TLI, by its name, with another layout.
    WrongLayout(&'static [u8]),
    Unknown,
}

impl<'a> Command<'a> {
    pub fn of(payload: &'a [u8]) -> Self {
        let Some((name, rest)) = payload.split_at_checked(3) else {
            return Command::Unknown;
        };
        match (name, rest) {
            (b"OPN", []) => Command::Opn,
            (b"TLE", []) => Command::Tle,
            (b"GTS", _) => gts(rest).unwrap_or(Command::WrongLayout(b"GTS")),
            (b"TLI", _) => tli(rest).unwrap_or(Command::WrongLayout(b"TLI")),
            (b"TLR", _) => Command::Tlr(block(rest)),
            _ => Command::Unknown,
        }
    }
}

fn gts(rest: &[u8]) -> Option<Command<'_>> {
    let network = rest.strip_prefix(b"002")?;
    Some(Command::Gts(network_of(network)?))
}

fn tli(rest: &[u8]) -> Option<Command<'_>> {
    let (network, version) = rest.strip_prefix(b"012")?.split_at_checked(2)?;
    let version = Version::try_from(version).ok()?;
    if !version::is_printable(&version) {
        return None;
    }
    Some(Command::Tli(network_of(network)?, version))
}

/// The rest behind the length field, which must tell exactly its length.
fn block(rest: &[u8]) -> Option<&[u8]> {
    let (length, block) = rest.split_at_checked(LENGTH)?;
    (digits::number(length)? == block.len()).then_some(block)
}

fn network_of(digits: &[u8]) -> Option<u8> {
    match digits {
        [_, _] => u8::try_from(digits::number(digits)?).ok(),
        _ => None,
    }
}

#[cfg(test)]
mod tests {
    use super::Command;

    #[test]
    fn each_name_with_its_layout() {
        for (payload, command) in [
            (&b"OPN"[..], Command::Opn),
            (b"TLE", Command::Tle),
            (b"GTS00200", Command::Gts(0)),
            (b"GTS00299", Command::Gts(99)),
            (b"TLI01207 ~ ~ ~ ~ ~", Command::Tli(7, *b" ~ ~ ~ ~ ~")),
            (
                b"TLR01001008103AZ",
                Command::Tlr(Some(b"01008103AZ".as_slice())),
            ),
            (b"TLR003abc", Command::Tlr(Some(b"abc".as_slice()))),
            (b"TLR000", Command::Tlr(Some(b"".as_slice()))),
        ] {
            assert_eq!(Command::of(payload), command, "{payload:?}");
        }
    }

    #[test]
    fn every_network() {
        for network in 0..=99 {
            let gts = format!("GTS002{network:02}");
            assert_eq!(Command::of(gts.as_bytes()), Command::Gts(network));
            let tli = format!("TLI012{network:02}0123456789");
            let wanted = Command::Tli(network, *b"0123456789");
            assert_eq!(Command::of(tli.as_bytes()), wanted);
        }
    }

    /// The names whose commands have no more bytes are unknown with more.
    #[test]
    fn opn_and_tle_with_more_bytes() {
        for payload in [&b"OPN0"[..], b"OPN000", b"TLE\0", b"TLE000", b"OPNOPN"] {
            assert_eq!(Command::of(payload), Command::Unknown, "{payload:?}");
        }
    }

    #[test]
    fn unknown_names_and_short_payloads() {
        for payload in [
            &b""[..],
            b"O",
            b"OP",
            b"GT",
            b"TL",
            b"opn",
            b"OPM",
            b"TLS",
            b"CLO",
            b"ERR",
            b" OPN",
            b"\x12OPN",
        ] {
            assert_eq!(Command::of(payload), Command::Unknown, "{payload:?}");
        }
    }

    /// Every other byte in every place behind the name.
    #[test]
    fn other_bytes_in_gts_and_tli() {
        for good in [&b"GTS00207"[..], b"TLI01207TABVER0008"] {
            let wrong = Command::WrongLayout(good[..3].try_into().expect("a name"));
            for place in 3..good.len() {
                for byte in 0..=255 {
                    let mut payload = good.to_vec();
                    payload[place] = byte;
                    let right = match place {
                        3..=5 => byte == good[place],
                        6..=7 => (0x30..=0x39).contains(&byte),
                        _ => (0x20..=0x7E).contains(&byte),
                    };
                    let command = Command::of(&payload);
                    assert_eq!(command != wrong, right, "{place} {byte:02X}");
                }
            }
        }
    }

    #[test]
    fn gts_and_tli_of_other_lengths() {
        for good in [&b"GTS00207"[..], b"TLI01207TABVER0008"] {
            let wrong = Command::WrongLayout(good[..3].try_into().expect("a name"));
            for length in 3..40 {
                let mut payload = good.to_vec();
                payload.resize(length, b'0');
                let right = length == good.len();
                assert_eq!(Command::of(&payload) != wrong, right, "{length}");
            }
        }
    }

    #[test]
    fn every_length_field_of_tlr() {
        for told in 0..=999 {
            for length in [0, 1, 10, 999, 1000, 2042] {
                let payload = [format!("TLR{told:03}").as_bytes(), &vec![b'x'; length]].concat();
                let wanted = (told == length).then(|| &payload[6..]);
                assert_eq!(Command::of(&payload), Command::Tlr(wanted));
            }
        }
        for rest in [&b""[..], b"0", b"00", b"00:", b" 00", b"0x1a", b"+01a"] {
            let payload = [b"TLR", rest].concat();
            assert_eq!(Command::of(&payload), Command::Tlr(None), "{rest:?}");
        }
    }
}
