//! How a call takes its piece, and that cuts change nothing.

use super::{load, Line, A, RECORD};
use second::device::{Device, Done};
use second::material::traffic::{random_traffic, Loads};
use second::packet::framed;
use second::random::Random;

/// One call; answers with what it did and all of the room after it.
fn call(line: &mut Line, piece: &[u8]) -> (Done, [u8; 64]) {
    let mut out = [0xEE; 64];
    let done = line
        .device
        .receive(piece, &mut out, &mut line.live, &mut line.loading);
    (done, out)
}

fn assert_call(line: &mut Line, piece: &[u8], taken: usize, reply: &[u8]) {
    let (done, out) = call(line, piece);
    let wanted = Done {
        refusal: 0,
        taken,
        written: reply.len(),
    };
    assert_eq!(done, wanted, "{piece:02X?}");
    assert_eq!(&out[..reply.len()], reply);
    assert!(out[reply.len()..].iter().all(|&byte| byte == 0xEE));
}

#[test]
fn a_call_stops_after_the_byte_that_completes_a_reply() {
    let mut line = Line::fresh();
    let opn = framed(b"OPN");
    let opened = framed(b"OPN000");
    let response = [&[0x06], &opened[..]].concat();
    assert_call(&mut line, &[], 0, &[]);
    assert_call(&mut line, &[&opn[..], &opn].concat(), 7, &response);
    assert_call(&mut line, &[0x15, 0x15], 1, &opened);
    assert_call(&mut line, &[0x00, 0x18, 0x18], 2, &[0x04]);
    let bad = [0x16, 0x17, 0x00, 0x00, 0x16];
    assert_call(&mut line, &bad, 4, &[0x15]);
    assert_call(&mut line, &opn[..6], 6, &[]);
    assert_call(&mut line, &opn[6..], 1, &response);
}

/// NAKs that are ignored, with nothing held and after the third resend.
#[test]
fn a_call_goes_on_after_what_completes_no_reply() {
    let mut line = Line::fresh();
    let opn = [&[0x15, 0x15, 0x00, 0x06], &framed(b"OPN")[..]].concat();
    let opened = framed(b"OPN000");
    assert_call(&mut line, &opn, 11, &[&[0x06], &opened[..]].concat());
    (0..3).for_each(|_| assert_call(&mut line, &[0x15], 1, &opened));
    assert_call(&mut line, &[0x15, 0x15, 0x18, 0x15], 3, &[0x04]);
    assert_call(&mut line, &[0x15; 5], 5, &[]);
}

/// All that a device is, after these pieces.
fn after<'a>(pieces: impl Iterator<Item = &'a [u8]>) -> (Vec<u8>, Device, Vec<u8>, Vec<u8>) {
    let mut line = Line::fresh();
    let replies = pieces.map(|piece| line.replies(piece).concat());
    let replies = replies.collect::<Vec<_>>().concat();
    (replies, line.device, line.live, line.loading)
}

#[test]
fn single_bytes_and_other_cuts_equal_one_burst() {
    for (seed, loads, length) in [
        (1, Loads::Short, 60_000),
        (2, Loads::Short, 60_000),
        (3, Loads::Any, 120_000),
    ] {
        let mut random = Random::new(seed);
        let traffic = random_traffic(&mut random, length, loads);
        let burst = after([&traffic[..]].into_iter());
        assert!(after(traffic.chunks(1)) == burst, "single bytes, {seed}");
        assert!(after(traffic.chunks(4096)) == burst, "bursts, {seed}");
        let mut rest = &traffic[..];
        let random_pieces = std::iter::from_fn(|| {
            let length = random.below(rest.len().min(300) + 1);
            let (piece, after) = rest.split_at(length);
            rest = after;
            (length > 0 || !after.is_empty()).then_some(piece)
        });
        assert!(after(random_pieces) == burst, "random pieces, {seed}");
    }
}

/// A whole load by single bytes, its replies byte by byte.
#[test]
fn a_load_by_single_bytes() {
    let mut whole = Line::fresh();
    load(&mut whole, 7, &A, &[RECORD.to_vec()], b"TLE000");
    let commands = [&b"TLI01207TABVER0008"[..], b"TLR01201010107AZab", b"TLE"];
    let traffic = commands.map(framed).concat();
    let (replies, device, live, _) = after(traffic.chunks(1));
    let responses = [b"TLI020", b"TLR000", b"TLE000"];
    let wanted = responses.map(|one| [&[0x06], &framed(one)[..]].concat());
    assert_eq!(replies, wanted.concat());
    assert_eq!((device, live), (whole.device, whole.live));
}
