//! The device: the scope paper, sections Reception, Commands and Numbered
//! refusals of calls, rule by rule, and random traffic against a model.

mod commands;
mod events;
mod history;
mod limits;
mod model;
mod pieces;
mod refusals;
mod resends;
mod samples;

use second::line::Line;
use second::material::command::{gts, tli, tlr};
use second::material::table::full_blocks;
use second::packet::{self, framed};

const A: [u8; 10] = *b"TABVER0008";
const B: [u8; 10] = *b" ~ ~ ~ ~ ~";
const ZEROS: [u8; 10] = *b"0000000000";

/// A good record of network 7, and the block of it alone.
const RECORD: &[u8] = b"010107AZab";
const BLOCK: &[u8] = b"01010107AZab";

/// The payload of the one response to a packet with this payload.
fn answer(line: &mut Line, payload: &[u8]) -> Vec<u8> {
    let replies = line.replies(&framed(payload));
    let [reply] = &replies[..] else {
        panic!("{replies:?}")
    };
    let packet = reply.strip_prefix(&[0x06]).expect("ACK before it");
    packet::read(packet).expect("a good packet")
}

/// Sends the command, which must be answered so.
fn ask(line: &mut Line, payload: &[u8], wanted: &[u8]) {
    let got = answer(line, payload);
    assert_eq!(got, wanted, "{}", String::from_utf8_lossy(payload));
}

/// Opens a load and adds these records to it, each block as full as it can be.
fn open_load(line: &mut Line, network: u8, version: &[u8; 10], records: &[Vec<u8>]) {
    let code = answer(line, &tli(network, version));
    assert!([&b"TLI000"[..], b"TLI020"].contains(&&code[..]));
    for block in full_blocks(records) {
        ask(line, &tlr(&block), b"TLR000");
    }
}

/// A whole load, which must be answered so when it is closed.
fn load(line: &mut Line, network: u8, version: &[u8; 10], records: &[Vec<u8>], wanted: &[u8]) {
    open_load(line, network, version, records);
    ask(line, b"TLE", wanted);
    assert!(line.loading.iter().all(|&byte| byte == 0));
    assert_eq!(line.device.tables.load, None);
}

/// Asks for a version, which must be this one.
fn ask_version(line: &mut Line, network: u8, version: &[u8; 10]) {
    ask(line, &gts(network), &[b"GTS000010", &version[..]].concat());
}

/// The used part of a store must be these bytes and its rest zero.
fn assert_store(store: &[u8], used: &[u8]) {
    assert_eq!(store.len(), 32_768);
    assert_eq!(&store[..used.len()], used);
    assert!(store[used.len()..].iter().all(|&byte| byte == 0));
}
