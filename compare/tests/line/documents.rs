//! Every example of the documents, sent to both programs.

use super::assert_alike;
use compare::program::Feed;
use second::material::command::tli;
use second::packet::framed;
use second::vectors::{Entry, Vectors};
use std::path::Path;

const FOLDER: &str = concat!(env!("CARGO_MANIFEST_DIR"), "/../vectors");

/// What an entry has under these keys, each once.
fn printed(entry: &Entry) -> Vec<Vec<u8>> {
    let bytes = |key| entry.bytes(key).expect("bytes, if any");
    let keys = ["hex", "payload", "repaired_hex"];
    keys.into_iter().filter_map(bytes).collect()
}

/// Packets and control bytes as they are, and all else as payloads. A load is
/// open again and again, for what the documents load.
fn traffic() -> Vec<u8> {
    let vectors = Vectors::read(Path::new(FOLDER)).expect("the vectors files are well formed");
    let mut traffic = Vec::new();
    for entry in &vectors.packets {
        printed(entry)
            .iter()
            .for_each(|bytes| traffic.extend(bytes));
        if entry.field("steps").is_some() {
            let steps = entry.steps().expect("an exchange has steps");
            steps.iter().for_each(|(_, bytes)| traffic.extend(bytes));
        }
    }
    for entry in vectors.messages.iter().chain(&vectors.objects) {
        for bytes in printed(entry) {
            traffic.extend(framed(&bytes));
            if bytes.starts_with(b"TLE") {
                traffic.extend(framed(&tli(3, b"TABVER0008")));
            }
        }
    }
    traffic
}

#[test]
fn the_documents_examples() {
    let traffic = traffic();
    assert!(traffic.len() > 20_000, "{}", traffic.len());
    for (feed, piece) in [(Feed::Pipe, traffic.len()), (Feed::Pieces, 1)] {
        let counts = assert_alike("documents", feed, &traffic, traffic.chunks(piece));
        for (kind, least) in [("OPN000", 4), ("TLR000", 4), ("TLE000", 2), ("15h", 2)] {
            assert!(
                counts.count(kind) >= least,
                "{kind}: {}",
                counts.count(kind)
            );
        }
    }
}
