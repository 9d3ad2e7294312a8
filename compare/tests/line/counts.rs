//! What a traffic's replies are, so that it is seen to try things out.

use std::collections::BTreeMap;

/// How long a traffic is, as far as that matters here.
#[derive(Clone, Copy, Debug)]
pub enum Length {
    /// Some hundred kilobytes of short loads.
    Short,
    /// One megabyte of them, or two of others.
    Long,
    /// Two megabytes of short loads, or six of others.
    Longest,
}

const NAK: &str = "15h";
const EOT: &str = "04h";
const RESEND: &str = "resend";

/// Kinds of replies, and how many there must be at least for each length. That is
/// about half of what the poorest of some hundred seeds came to, or less.
const LEAST: [(&str, [usize; 3]); 16] = [
    ("OPN000", [10, 50, 150]),
    ("GTS000", [50, 150, 500]),
    ("GTS011", [1, 10, 50]),
    ("TLI000", [5, 15, 50]),
    ("TLI020", [20, 50, 200]),
    ("TLI011", [1, 15, 50]),
    ("TLR000", [150, 700, 1500]),
    ("TLR010", [5, 50, 150]),
    ("TLR011", [1, 15, 50]),
    ("TLE000", [10, 40, 150]),
    ("TLE010", [1, 10, 40]),
    ("TLE021", [1, 10, 40]),
    ("ERR010", [5, 30, 150]),
    (NAK, [10, 50, 150]),
    (EOT, [5, 40, 150]),
    (RESEND, [20, 100, 300]),
];

/// How many replies there are of each kind. A response goes by its name and its
/// code.
pub struct Counts(BTreeMap<String, usize>);

impl Counts {
    pub fn of(replies: &[Vec<u8>]) -> Self {
        let mut counts = BTreeMap::new();
        for reply in replies {
            *counts.entry(kind(reply)).or_default() += 1;
        }
        Counts(counts)
    }

    pub fn count(&self, kind: &str) -> usize {
        self.0.get(kind).copied().unwrap_or_default()
    }

    pub fn assert_least(&self, name: &str, length: Length) {
        println!("{name}: {:?}", self.0);
        for (kind, least) in LEAST {
            assert!(
                self.count(kind) >= least[length as usize],
                "{name}, {kind}: {:?}",
                self.0
            );
        }
    }
}

fn kind(reply: &[u8]) -> String {
    match reply {
        [0x15] => NAK.to_string(),
        [0x04] => EOT.to_string(),
        [0x16, ..] => RESEND.to_string(),
        [0x06, 0x16, response @ ..] => String::from_utf8_lossy(&response[..6]).to_string(),
        _ => panic!("no reply: {reply:02X?}"),
    }
}
