//! The documents' exchanges with the device, as far as the scope paper covers
//! their commands.

use super::{bytes, text, vectors};
use second::line::Line;
use second::material::command::{tli, tlr};
use second::material::table::{block_of, record_of};
use second::packet::framed;
use second::vectors::Entry;

/// Commands whose responses are printed for a classic device.
const NAMES: [&str; 5] = ["OPN", "GTS", "TLI", "TLR", "TLE"];

/// The version that the documents' device has for network 02.
const HELD: [u8; 10] = *b"XEMVST0003";

fn is_asked(entry: &Entry, document: &str) -> bool {
    text(entry, "doc") == document
        && NAMES.contains(&text(entry, "name"))
        && text(entry, "covered") == "yes"
}

/// The bytes of a message, repaired where its print is damaged.
fn payload(entry: &Entry) -> Vec<u8> {
    let printed = bytes(entry, "hex");
    let right = bytes(entry, "repaired_hex").or(printed);
    right.expect("the bytes of a message")
}

/// A device with that version.
fn with_held_version() -> Line {
    let mut line = Line::fresh();
    let block = block_of(&[record_of(b'1', 2, 0, 20)]);
    for command in [tli(2, &HELD), tlr(&block), b"TLE".to_vec()] {
        line.replies(&framed(&command));
    }
    line
}

/// Command by command, in the documents' order: a load for all networks is opened,
/// gets two blocks and is closed.
#[test]
fn every_covered_command_gets_the_printed_response() {
    for document in ["000", "001"] {
        let entries = vectors().messages;
        let asked: Vec<&Entry> = entries
            .iter()
            .filter(|entry| is_asked(entry, document))
            .collect();
        assert_eq!(asked.len(), 12, "{document}");
        let mut line = with_held_version();
        for pair in asked.chunks(2) {
            let directions = [text(pair[0], "dir"), text(pair[1], "dir")];
            assert_eq!(directions, ["SPE", "PP"]);
            let reply = line.replies(&framed(&payload(pair[0])));
            let wanted = [&[0x06], &framed(&payload(pair[1]))[..]].concat();
            assert_eq!(reply, [wanted], "{}", text(pair[0], "id"));
        }
        assert_eq!(line.device.tables.versions, [*b"TABVER0008"; 100]);
        assert_eq!(line.device.tables.live.records, 6);
    }
}

/// The printed packets go in as they are. Where the documents' device answers a
/// command that is not covered, this one has another response, but the same order
/// of control bytes and packets.
#[test]
fn every_printed_exchange_has_its_control_bytes() {
    let entries = vectors().packets;
    let exchanges = entries
        .iter()
        .filter(|entry| text(entry, "kind") == "exchange");
    let mut shown = Vec::new();
    for entry in exchanges {
        let steps = entry.steps().expect("an exchange has steps");
        let sent = steps.iter().filter(|(sender, _)| *sender == "SPE");
        let sent: Vec<u8> = sent.flat_map(|(_, bytes)| bytes.clone()).collect();
        let replies = Line::fresh().replies(&sent);
        let first: Vec<u8> = replies.iter().map(|reply| reply[0]).collect();
        shown.push((text(entry, "id").to_string(), first));
    }
    let shown: Vec<(&str, &[u8])> = shown
        .iter()
        .map(|(id, first)| (&id[..], &first[..]))
        .collect();
    let wanted: [(&str, &[u8]); 4] = [
        ("X-000-2.2.2.1", &[0x15, 0x06]),
        ("X-000-2.2.2.2", &[0x06, 0x16]),
        ("X-000-2.2.2.3", &[0x06, 0x04]),
        ("X-001-2.2.2.1", &[0x15, 0x06]),
    ];
    assert_eq!(shown, wanted);
}
