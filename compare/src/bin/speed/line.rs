//! The programs on the line. Both run as children on the same recorded traffic, in
//! turns. The clock starts when a child has its tables full and stops at the end of
//! its replies, so that what is measured besides its work is the way to it and
//! back.

use crate::report::{Figures, Group, Row};
use compare::program::{proved, Feed, Running};
use compare::timing;
use second::line::{Line, PIECE};
use second::material::traffic::recorded_packets;
use std::process::Command;
use std::time::Instant;

/// Has this program be the second program's end of the line.
pub const SECOND: &str = "second";

const CALL: &str = "line";

/// Loads after which the tables are as full as the traffic makes them. Before
/// that, a call has less to judge.
const FULL_AFTER: usize = 2;

/// How many times the loads are those of the longer traffic.
const LONGER: usize = 4;

/// A way of handing traffic over.
struct Way {
    name: &'static str,
    feed: Feed,
    /// The size of each piece.
    piece: usize,
    loads: usize,
    rounds: usize,
}

const PIPE: Way = Way {
    name: "a pipe",
    feed: Feed::Pipe,
    piece: usize::MAX,
    loads: 100,
    rounds: 21,
};

const CUT: [Way; 2] = [
    Way {
        name: "bursts of 4096",
        feed: Feed::Pieces,
        piece: PIECE,
        loads: 100,
        rounds: 21,
    },
    Way {
        name: "single bytes",
        feed: Feed::Pieces,
        piece: 1,
        loads: 2,
        rounds: 11,
    },
];

/// Recorded traffic, and what must be replied to it.
struct Traffic {
    /// Packets that fill the tables first, each with its reply.
    before: Vec<(Vec<u8>, Vec<u8>)>,
    packets: usize,
    bytes: Vec<u8>,
    wanted: Vec<u8>,
}

/// Is the second program's end of the line until its input ends.
pub fn be_second() {
    second::line::program().expect("the line can be read and written");
}

pub fn groups() -> Vec<Group> {
    let mut rows = Vec::from(piped());
    rows.extend(CUT.iter().map(row));
    vec![Group {
        title: "Line as a child, loads of 250 records",
        second: "line over device",
        rows,
    }]
}

/// The traffic as a pipe cuts it, and how the time a packet grows with more of it.
/// The longer traffic takes turns with the other one too.
fn piped() -> [Row; 2] {
    let traffic = [PIPE.loads, PIPE.loads * LONGER].map(Traffic::of);
    let [proved, second, proved_longer, second_longer] =
        timing::medians(PIPE.rounds, |turn| traffic[turn / 2].time(&PIPE, turn % 2));
    let growth = Figures::Growth([proved_longer / proved, second_longer / second]);
    let input = format!("a packet, {} : {} loads", PIPE.loads * LONGER, PIPE.loads);
    [
        packet_row(&PIPE, [proved, second]),
        Row::of(CALL, &input, growth),
    ]
}

fn row(way: &Way) -> Row {
    let traffic = Traffic::of(way.loads);
    let ns = timing::medians(way.rounds, |side| traffic.time(way, side));
    packet_row(way, ns)
}

fn packet_row(way: &Way, ns: [f64; 2]) -> Row {
    let input = format!("{}, {} loads", way.name, way.loads);
    Row::times(CALL, &input, "packet", ns)
}

impl Traffic {
    fn of(loads: usize) -> Self {
        let mut line = Line::fresh();
        let before = recorded_packets(FULL_AFTER).into_iter();
        let before = before.map(|packet| {
            let reply = line.replies(&packet).concat();
            (packet, reply)
        });
        let before = before.collect();
        let packets = recorded_packets(loads);
        let bytes = packets.concat();
        Traffic {
            before,
            packets: packets.len(),
            wanted: line.replies(&bytes).concat(),
            bytes,
        }
    }

    /// The ns a packet of a side's program, which must give the replies.
    fn time(&self, way: &Way, side: usize) -> f64 {
        let mut running = Running::start(program_of(side), way.feed);
        for (packet, reply) in &self.before {
            running.ask(packet, reply);
        }
        let start = Instant::now();
        let replies = running.talk(self.bytes.chunks(way.piece));
        let time = start.elapsed();
        assert!(replies == self.wanted, "{}: the replies differ", way.name);
        time.as_nanos() as f64 / self.packets as f64
    }
}

fn program_of(side: usize) -> Command {
    match side {
        0 => proved(),
        _ => {
            let own = std::env::current_exe().expect("this program has a place");
            let mut second = Command::new(own);
            second.arg(SECOND);
            second
        }
    }
}
