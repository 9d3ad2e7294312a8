//! A device that is all history: it finds the packets in the whole traffic by
//! looking for their ends, and keeps records and not stores.
//!
//! It shares neither reception nor command nor store with the device. What it
//! builds on is the packet reader and the tables made of records.

use second::digits::number;
use second::packet;
use second::table::block::read_block;
use second::table::load::{close, Load};
use second::table::record::Record;
use second::table::version::{brought, closed, Version, Versions, FRESH};
use std::collections::BTreeMap;

/// What the traffic came to.
pub struct Model {
    pub set: Vec<Record>,
    pub versions: Versions,
    /// The open load with its version and whether a TLR was answered 000.
    pub load: Option<(Load, Version, bool)>,
    pub replies: Vec<Vec<u8>>,
    /// How often each telling thing came up.
    pub seen: BTreeMap<&'static str, usize>,
    /// The held response and how often it may be sent again.
    held: Option<(Vec<u8>, u8)>,
}

impl Model {
    pub fn of(traffic: &[u8]) -> Self {
        let mut model = Model {
            set: Vec::new(),
            versions: FRESH,
            load: None,
            replies: Vec::new(),
            seen: BTreeMap::new(),
            held: None,
        };
        let mut rest = traffic;
        while let Some((byte, after)) = rest.split_first() {
            rest = match byte {
                0x16 => model.packet_at(rest),
                _ => after,
            };
            match byte {
                0x15 => model.nak(),
                0x18 => model.can(),
                _ => {}
            }
        }
        model
    }

    fn see(&mut self, thing: &'static str) {
        *self.seen.entry(thing).or_default() += 1;
    }

    /// Behind SYN all is a packet up to the first ETB and the two bytes after it.
    /// It begins at the last SYN before that ETB.
    fn packet_at<'a>(&mut self, bytes: &'a [u8]) -> &'a [u8] {
        let Some(end) = bytes.iter().position(|&byte| byte == 0x17) else {
            return &[];
        };
        let start = bytes[..end].iter().rposition(|&byte| byte == 0x16);
        let start = start.expect("the first byte is one");
        let Some((packet, rest)) = bytes.split_at_checked(end + 3) else {
            return &[];
        };
        if start > 0 {
            self.see("started afresh");
        }
        match packet::read(&packet[start..]) {
            Ok(payload) => self.run(&payload),
            Err(refusal) => {
                self.see(match refusal {
                    10 => "empty",
                    11 => "payload over",
                    12 => "bad pair",
                    _ => "check differs",
                });
                self.replies.push(vec![0x15]);
            }
        }
        rest
    }

    fn nak(&mut self) {
        match &mut self.held {
            Some((packet, left @ 1..)) => {
                *left -= 1;
                self.replies.push(packet.clone());
                self.see("resend");
            }
            Some(_) => self.see("fourth NAK"),
            None => self.see("NAK with nothing held"),
        }
    }

    fn can(&mut self) {
        self.held = None;
        self.replies.push(vec![0x04]);
    }

    fn run(&mut self, payload: &[u8]) {
        if payload.len() == 2048 {
            self.see("payload of 2048");
        }
        let packet = packet::framed(&self.response(payload));
        self.replies.push([&[0x06], &packet[..]].concat());
        self.held = Some((packet, 3));
    }

    fn response(&mut self, payload: &[u8]) -> Vec<u8> {
        let name = &payload[..payload.len().min(3)];
        let rest = &payload[name.len()..];
        let code = match (name, rest) {
            (b"OPN", []) => "000",
            (b"GTS", _) => match network_in(rest, b"002", 5) {
                Some(network) => return gts(&self.versions[network]),
                None => "011",
            },
            (b"TLI", _) => self.tli(rest),
            (b"TLR", _) => self.tlr(rest),
            (b"TLE", []) => self.tle(),
            _ => return b"ERR010".to_vec(),
        };
        [name, code.as_bytes()].concat()
    }

    fn tli(&mut self, rest: &[u8]) -> &'static str {
        let Some(network) = network_in(rest, b"012", 15) else {
            return "011";
        };
        let version: Version = rest[5..].try_into().expect("ten bytes");
        if version.iter().any(|byte| !(0x20..=0x7E).contains(byte)) {
            return "011";
        }
        if self.load.is_some() {
            self.see("load dropped");
        }
        self.load = Some((Load::open(network as u8), version, false));
        match self.versions[network] == version {
            true => "000",
            false => "020",
        }
    }

    fn tlr(&mut self, rest: &[u8]) -> &'static str {
        let Some((load, _, answered)) = &mut self.load else {
            return "010";
        };
        let told = rest.get(..3).and_then(number);
        if told != rest.len().checked_sub(3) {
            return "011";
        }
        let Some(records) = read_block(&rest[3..]) else {
            return "011";
        };
        *answered = true;
        let network = load.network;
        let skips = records.iter().any(|record| !record.is_taken(network));
        load.add(records);
        if skips {
            self.see("record skipped");
        }
        "000"
    }

    fn tle(&mut self) -> &'static str {
        let Some((load, version, answered)) = self.load.take() else {
            return "010";
        };
        let network = load.network;
        let before = self.set.clone();
        let (over, kept) = (load.over, load.kept.len());
        if !close(&mut self.set, load) {
            self.see(match (over, kept) {
                (true, 512) => "load over by records",
                (true, _) => "load over by bytes",
                (false, _) => "over with the live set",
            });
            return "021";
        }
        closed(&mut self.versions, network, brought(version, answered));
        if self.set != before {
            self.see("live set changed");
        }
        self.see_closed(network, answered);
        "000"
    }

    fn see_closed(&mut self, network: u8, answered: bool) {
        self.see(match (network, answered) {
            (0, true) => "closed for all",
            (_, true) => "closed for one",
            (_, false) => "closed without TLR",
        });
        let used: usize = self.set.iter().map(|one| one.whole.len()).sum();
        if self.set.len() == 512 {
            self.see("512 live");
        }
        if used == 32_768 {
            self.see("32768 bytes live");
        }
    }
}

fn gts(version: &Version) -> Vec<u8> {
    [b"GTS000010", &version[..]].concat()
}

/// The network behind a length field, where the rest is of that length.
fn network_in(rest: &[u8], field: &[u8; 3], length: usize) -> Option<usize> {
    if rest.len() != length || !rest.starts_with(field) {
        return None;
    }
    number(&rest[3..5])
}
