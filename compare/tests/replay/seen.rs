//! What the logs of random scripts show, so that they are seen to try things out.

use second::hex;
use std::collections::BTreeMap;

/// How often each thing must come up at least: calls and their replies, and in
/// what states the device is left. That is about half of what the poorest of sixty
/// seeds came to, or less, but for the broken scripts, whose number is fixed.
const LEAST: [(&str, usize); 35] = [
    ("bad script", 41),
    ("no reply", 50_000),
    ("04", 1_000),
    ("15", 600),
    ("resend", 1_000),
    ("OPN000", 400),
    ("GTS000", 1_000),
    ("GTS011", 150),
    ("TLI000", 150),
    ("TLI020", 500),
    ("TLI011", 300),
    ("TLR000", 2_000),
    ("TLR010", 600),
    ("TLR011", 100),
    ("TLE000", 250),
    ("TLE010", 150),
    ("TLE021", 8),
    ("ERR010", 400),
    ("T 0", 1_500),
    ("R 0", 500),
    ("reception idle", 50),
    ("reception data", 40),
    ("reception escape", 5),
    ("reception first", 3),
    ("reception second", 2),
    ("spoiled 1", 5),
    ("nothing held", 20),
    ("held", 100),
    ("sent again", 8),
    ("load closed", 40),
    ("load open", 60),
    ("any 0", 10),
    ("any 1", 40),
    ("over 1", 4),
    ("live records", 50),
];

/// How often each thing came up, and how many bytes of scripts there were.
#[derive(Default)]
pub struct Seen {
    pub bytes: usize,
    times: BTreeMap<String, usize>,
}

impl Seen {
    pub fn see(&mut self, log: &str) {
        for line in log.lines() {
            for thing in things(line) {
                *self.times.entry(thing).or_default() += 1;
            }
        }
    }

    pub fn assert_enough(&self, seed: u64) {
        println!("{} bytes of scripts: {:?}", self.bytes, self.times);
        assert!(self.bytes > 3_000_000, "seed {seed}: {} bytes", self.bytes);
        for (thing, least) in LEAST {
            let times = self.times.get(thing).copied().unwrap_or_default();
            assert!(times >= least, "seed {seed}, {thing}: {:?}", self.times);
        }
    }
}

/// What a line of a log shows.
fn things(line: &str) -> Vec<String> {
    let fields: Vec<&str> = line.split(' ').collect();
    let things: &[&str] = match fields[..] {
        ["B", "0", _, reply] => &[&reply_kind(reply)],
        ["T" | "R" | "bad", _] | ["load", "closed"] => &[line],
        ["reception", name, spoiled, _] => {
            let name = name.split('-').next().unwrap_or(name);
            &[&format!("reception {name}"), &format!("spoiled {spoiled}")]
        }
        ["held", "-", "0"] => &["nothing held"],
        ["held", _, "0"] => &["held"],
        ["held", _, _] => &["held", "sent again"],
        ["load", "open", _, _, _, _, over, any] => {
            &["load open", &format!("over {over}"), &format!("any {any}")]
        }
        ["live", _, records] if records != "0" => &["live records"],
        _ => &[],
    };
    things.iter().map(|thing| thing.to_string()).collect()
}

/// A response goes by its name and its code.
fn reply_kind(reply: &str) -> String {
    match reply.split_at_checked(4) {
        Some(("0616", response)) => {
            let code = hex::read(&response.as_bytes()[..12]).expect("six bytes");
            String::from_utf8(code).expect("a name and a code")
        }
        Some(_) => "resend".to_string(),
        None if reply == "-" => "no reply".to_string(),
        None => reply.to_string(),
    }
}
