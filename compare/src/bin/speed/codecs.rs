//! The codec calls: packets, messages and objects, from lent bytes into a lent
//! buffer, which is not cleared between calls.

use crate::report::{Group, Row, BY_HAND};
use compare::{alike, proved, timing};
use second::answer::Answer;
use second::material::message::parameter_of;
use second::packet::{framed, DC3, LARGEST_PAYLOAD};
use second::random::Random;
use second::{by_hand, message, object};
use std::hint::black_box;

/// A call on its input, into the lent buffer.
type Call<'a> = &'a dyn Fn(&mut [u8]) -> Answer;

const ROUNDS: usize = 301;
const CALLS_A_ROUND: u32 = 50;

/// As long as the longest packet.
const ROOM: usize = 2 * LARGEST_PAYLOAD + 4;

/// The random payload is the same in every run, so that runs can be compared.
const SEED: u64 = 1;

const MLR: &[u8] = b"MLR";
const COMMAND: u8 = 0;

pub fn groups() -> Vec<Group> {
    let all = [
        ("Packets", packets()),
        ("Messages", messages()),
        ("Objects", objects()),
    ];
    let group = |(title, rows)| Group {
        title,
        second: BY_HAND,
        rows,
    };
    all.map(group).into()
}

fn packets() -> Vec<Row> {
    let rows = payloads().map(|(name, payload)| {
        let packet = framed(&payload);
        let input = format!("{LARGEST_PAYLOAD} bytes, {name}");
        let write = row(
            "write packet",
            &input,
            [
                &|out| proved::packet::write(black_box(&payload), out),
                &|out| by_hand::packet::write(black_box(&payload), out),
            ],
        );
        let read = row(
            "read packet",
            &input,
            [
                &|out| proved::packet::read(black_box(&packet), out),
                &|out| by_hand::packet::read(black_box(&packet), out),
            ],
        );
        [write, read]
    });
    rows.into_iter().flatten().collect()
}

fn payloads() -> [(&'static str, Vec<u8>); 3] {
    let mut random = Random::new(SEED);
    let plain = (0..LARGEST_PAYLOAD).map(|place| 0x20 + (place % 0x60) as u8);
    let any = (0..LARGEST_PAYLOAD).map(|_| random.byte());
    [
        ("no pairs", plain.collect()),
        ("random", any.collect()),
        ("all pairs", vec![DC3; LARGEST_PAYLOAD]),
    ]
}

/// The largest message, once of parameters as small as they are in the documents'
/// examples and once of as few as possible.
fn messages() -> Vec<Row> {
    let small = [&[6; 203][..], &[2]].concat();
    let rows =
        [("small data", small), ("large data", vec![995, 995, 34])].map(|(name, lengths)| {
            let parameters = lengths
                .iter()
                .map(|&data| parameter_of(1, &vec![b'x'; data]));
            let list: Vec<u8> = parameters.flatten().collect();
            let message = message::write(MLR, false, &list).expect("the list fits a message");
            let input = format!("{} bytes, {name}", message.len());
            let read = row(
                "read message",
                &input,
                [
                    &|out| proved::message::read(black_box(&message), COMMAND, out),
                    &|out| by_hand::message::read(black_box(&message), false, out),
                ],
            );
            let write = row(
                "write message",
                &input,
                [
                    &|out| proved::message::write(MLR, COMMAND, black_box(&list), out),
                    &|out| by_hand::message::write(MLR, false, black_box(&list), out),
                ],
            );
            [read, write]
        });
    rows.into_iter().flatten().collect()
}

/// A list of 222 small objects, walked from end to end by the reader, and twenty
/// tags from all over it picked.
fn objects() -> Vec<Row> {
    let tags: Vec<[u8; 2]> = (0..222).map(two_byte_tag).collect();
    let object = |tag: &[u8; 2]| object::write(tag, &[0x40; 6]).expect("the tag is good");
    let list: Vec<u8> = tags.iter().flat_map(object).collect();
    let input = format!("{} bytes, {} objects", list.len(), tags.len());
    let walked = row(
        "walk objects",
        &input,
        [&|_| walk(black_box(&list), proved_whole), &|_| {
            walk(black_box(&list), by_hand_whole)
        }],
    );
    let some = tags.iter().step_by(11).take(20);
    let asked: Vec<u8> = some.flatten().copied().collect();
    let picked = row(
        "pick 20 objects",
        &input,
        [
            &|out| proved::object::pick(black_box(&asked), black_box(&list), out),
            &|out| by_hand::object::pick(black_box(&asked), black_box(&list), out),
        ],
    );
    vec![walked, picked]
}

fn two_byte_tag(number: u8) -> [u8; 2] {
    let first = [0x5F, 0x9F][usize::from(number / 0x80)];
    [first, number % 0x80]
}

fn proved_whole(input: &[u8]) -> Result<usize, u8> {
    let read = proved::object::read(input);
    match read.refusal {
        0 => Ok(read.whole),
        refusal => Err(refusal),
    }
}

fn by_hand_whole(input: &[u8]) -> Result<usize, u8> {
    by_hand::object::read(input).map(|lengths| lengths.whole)
}

/// Object after object; answers with the length of all of them.
fn walk(list: &[u8], whole: impl Fn(&[u8]) -> Result<usize, u8>) -> Answer {
    let mut place = 0;
    while place < list.len() {
        match whole(&list[place..]) {
            Ok(length) => place += length,
            Err(refusal) => return (refusal, 0),
        }
    }
    (0, place)
}

/// Times the call. Both sides must give the same answer and leave the same buffer,
/// and a refused call would be measured for nothing.
fn row(call: &'static str, input: &str, sides: [Call; 2]) -> Row {
    let [proved, second] = sides.map(|side| alike::called(ROOM, side));
    assert!(proved == second, "{call}, {input}: the sides differ");
    let (mut out, (refusal, _)) = proved;
    assert_eq!(refusal, 0, "{call}, {input}");
    let ns = timing::medians(ROUNDS, |side| {
        timing::average(CALLS_A_ROUND, || {
            black_box(sides[side](black_box(&mut out[..ROOM])));
        })
    });
    Row::times(call, input, "call", ns)
}
