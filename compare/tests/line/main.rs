//! The proved program `line` against the second one: the same traffic, and every
//! byte of the replies, however the traffic is cut.

mod counts;
mod documents;

use compare::program::{proved, Feed, Running};
use compare::seed;
use counts::{Counts, Length};
use second::line::{Line, PIECE};
use second::material::traffic::{random_traffic, recorded_packets, Loads};
use second::random::Random;

const OPN: [u8; 7] = [0x16, 0x4F, 0x50, 0x4E, 0x17, 0xA8, 0xA9];
const OPENED: [u8; 11] = [
    0x06, 0x16, 0x4F, 0x50, 0x4E, 0x30, 0x30, 0x30, 0x17, 0x77, 0x5E,
];

/// The second program's replies, which must be the proved one's too.
fn assert_alike<'a>(
    name: &str,
    feed: Feed,
    traffic: &[u8],
    pieces: impl Iterator<Item = &'a [u8]>,
) -> Counts {
    let replies = Line::fresh().replies(traffic);
    let got = Running::start(proved(), feed).talk(pieces);
    let wanted = replies.concat();
    if got != wanted {
        let same = got.iter().zip(&wanted).take_while(|(a, b)| a == b).count();
        let near = |bytes: &[u8]| {
            let end = bytes.len().min(same + 32);
            format!("{:02X?}", &bytes[same.saturating_sub(32)..end])
        };
        panic!(
            "{name}: replies differ from byte {same} on, of {} and {}\nproved {}\nsecond {}",
            got.len(),
            wanted.len(),
            near(&got),
            near(&wanted)
        );
    }
    Counts::of(&replies)
}

/// Traffic of a seed that is told, also where the replies differ.
fn told(test: &str, length: usize, loads: Loads) -> (String, Random, Vec<u8>) {
    let seed = seed::told(test);
    let mut random = Random::new(seed);
    let traffic = random_traffic(&mut random, length, loads);
    (format!("{test}, seed {seed}"), random, traffic)
}

/// Pieces of any size up to what one read takes, most of them short.
fn random_pieces<'a>(random: &mut Random, mut rest: &'a [u8]) -> Vec<&'a [u8]> {
    let mut pieces = Vec::new();
    while !rest.is_empty() {
        let most = random.pick(&[2, 20, 300, PIECE]);
        let length = 1 + random.below(most);
        let (piece, after) = rest.split_at(length.min(rest.len()));
        pieces.push(piece);
        rest = after;
    }
    pieces
}

/// The scope paper, section Sample line traffic.
#[test]
fn opn() {
    let got = Running::start(proved(), Feed::Pipe).talk([&OPN[..]].into_iter());
    assert_eq!(got, OPENED);
    let got = Running::start(proved(), Feed::Pieces).talk(OPN.chunks(1));
    assert_eq!(got, OPENED);
}

/// The proved program must not wait for more than it has been sent.
#[test]
fn replies_come_before_the_input_ends() {
    for feed in [Feed::Pipe, Feed::Pieces] {
        let mut running = Running::start(proved(), feed);
        running.ask(&OPN, &OPENED);
        running.ask(&[0x15], &OPENED[1..]);
        running.ask(
            &[&OPN[..], &[0x18]].concat(),
            &[&OPENED[..], &[0x04]].concat(),
        );
        assert_eq!(running.talk([&[0x18][..]].into_iter()), [0x04]);
    }
}

#[test]
fn through_a_pipe() {
    let (name, _, traffic) = told("through_a_pipe", 6_000_000, Loads::Any);
    let counts = assert_alike(&name, Feed::Pipe, &traffic, [&traffic[..]].into_iter());
    counts.assert_least(&name, Length::Longest);
}

#[test]
fn short_loads_through_a_pipe() {
    let (name, _, traffic) = told("short_loads_through_a_pipe", 2_000_000, Loads::Short);
    let counts = assert_alike(&name, Feed::Pipe, &traffic, [&traffic[..]].into_iter());
    counts.assert_least(&name, Length::Longest);
}

#[test]
fn single_bytes() {
    let (name, _, traffic) = told("single_bytes", 300_000, Loads::Short);
    let counts = assert_alike(&name, Feed::Pieces, &traffic, traffic.chunks(1));
    counts.assert_least(&name, Length::Short);
}

#[test]
fn pieces_at_random() {
    for (loads, length) in [(Loads::Any, 2_000_000), (Loads::Short, 1_000_000)] {
        let (name, mut random, traffic) = told("pieces_at_random", length, loads);
        let pieces = random_pieces(&mut random, &traffic);
        let counts = assert_alike(&name, Feed::Pieces, &traffic, pieces.into_iter());
        counts.assert_least(&name, Length::Long);
    }
}

#[test]
fn bursts_of_4096() {
    let (name, _, traffic) = told("bursts_of_4096", 3_000_000, Loads::Any);
    let counts = assert_alike(&name, Feed::Pieces, &traffic, traffic.chunks(PIECE));
    counts.assert_least(&name, Length::Long);
}

/// What the benchmark runs.
#[test]
fn recorded_traffic() {
    let traffic = recorded_packets(20).concat();
    for feed in [Feed::Pipe, Feed::Pieces] {
        assert_alike("recorded", feed, &traffic, traffic.chunks(PIECE));
    }
}
