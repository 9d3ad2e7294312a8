//! The held response: the one that NAK asks for again.

use crate::table::version;

/// How often a response is sent again at most.
pub const MOST_RESENDS: u8 = 3;

/// Every response payload but that of a GTS that is answered 000 (the scope
/// paper, section Commands).
const FIXED: [&[u8; 6]; 12] = [
    b"OPN000", b"GTS011", b"TLI000", b"TLI020", b"TLI011", b"TLR000", b"TLR010", b"TLR011",
    b"TLE000", b"TLE010", b"TLE021", b"ERR010",
];

/// A response, held as its payload: the packet is made of it each time.
#[derive(Clone, Debug, PartialEq)]
pub struct Held {
    pub payload: Vec<u8>,
    /// How often it was sent again.
    pub resends: u8,
}

impl Held {
    pub fn new(payload: Vec<u8>) -> Self {
        Held {
            payload,
            resends: 0,
        }
    }

    /// Whether a command could have been answered with it, and been sent again so
    /// often. The scope paper, section Numbered refusals of calls, asks for what
    /// is there and not how it came.
    pub fn is_sound(&self) -> bool {
        self.resends <= MOST_RESENDS && is_response(&self.payload)
    }

    /// The payload, if it may be sent once more; that is counted.
    pub fn again(&mut self) -> Option<&[u8]> {
        if self.resends == MOST_RESENDS {
            return None;
        }
        self.resends += 1;
        Some(&self.payload)
    }
}

fn is_response(payload: &[u8]) -> bool {
    match payload.strip_prefix(b"GTS000010") {
        Some(version) => version.len() == version::LENGTH && version::is_printable(version),
        None => FIXED.iter().any(|fixed| fixed[..] == *payload),
    }
}

#[cfg(test)]
mod tests {
    use super::Held;

    fn is_sound(payload: &[u8]) -> bool {
        Held::new(payload.to_vec()).is_sound()
    }

    /// The scope paper, section Commands: each command with each of its codes.
    #[test]
    fn the_responses_of_the_command_table() {
        let mut sound = 0;
        for name in ["OPN", "GTS", "TLI", "TLR", "TLE", "ERR", "CEX", "opn"] {
            for code in 0..1000 {
                let payload = format!("{name}{code:03}");
                let given: &[u16] = match name {
                    "OPN" => &[0],
                    "GTS" => &[11],
                    "TLI" => &[0, 11, 20],
                    "TLR" => &[0, 10, 11],
                    "TLE" => &[0, 10, 21],
                    "ERR" => &[10],
                    _ => &[],
                };
                let wanted = given.contains(&code);
                assert_eq!(is_sound(payload.as_bytes()), wanted, "{payload}");
                sound += usize::from(wanted);
                assert!(!is_sound(format!("{payload}0").as_bytes()));
                assert!(!is_sound(&payload.as_bytes()[..5]));
            }
        }
        assert_eq!(sound, 12);
        assert!(!is_sound(b""));
    }

    #[test]
    fn a_version_is_ten_bytes_20h_to_7eh() {
        assert!(is_sound(b"GTS0000100000000000"));
        assert!(is_sound(b"GTS000010 ~ ~ ~ ~ ~"));
        assert!(!is_sound(b"GTS0000110000000000"));
        for (place, byte) in (9..19).flat_map(|place| (0..=255).map(move |byte| (place, byte))) {
            let mut payload = *b"GTS000010TABVER0008";
            payload[place] = byte;
            let wanted = (0x20..=0x7E).contains(&byte);
            assert_eq!(is_sound(&payload), wanted, "{place} {byte:02X}");
        }
        for length in 0..30 {
            let payload = [&b"GTS000010"[..], &vec![b'0'; length]].concat();
            assert_eq!(is_sound(&payload), length == 10, "{length}");
        }
    }

    #[test]
    fn three_times_and_no_more() {
        let mut held = Held::new(b"OPN000".to_vec());
        for resends in 1..=3 {
            assert_eq!(held.again(), Some(&b"OPN000"[..]));
            assert_eq!(held.resends, resends);
            assert!(held.is_sound());
        }
        assert_eq!(held.again(), None);
        assert_eq!(held.resends, 3);
        held.resends = 4;
        assert!(!held.is_sound());
    }
}
