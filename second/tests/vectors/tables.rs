//! The table records of the messages file: the blocks of its TLR commands.

use super::{bytes, text, vectors};
use second::by_hand;
use second::table::block::read_block;
use second::table::load::{close, Load};
use second::table::record::Record;
use second::table::store::used_by;

/// The block of a TLR, behind the name and the length field.
fn block(message: &[u8]) -> Option<Vec<Record>> {
    let records = read_block(&message[6..]);
    let by_hand = by_hand::table::block_is_good(&message[6..]);
    assert_eq!(by_hand, records.is_some());
    records
}

/// As printed and as repaired, with what the entry says of it.
fn examples() -> Vec<(String, Vec<u8>, Vec<u8>)> {
    let entries = vectors().messages;
    let commands = entries
        .iter()
        .filter(|entry| text(entry, "name") == "TLR" && text(entry, "dir") == "SPE");
    commands
        .map(|entry| {
            let repaired = bytes(entry, "repaired_hex").expect("each has a repair");
            let printed = bytes(entry, "hex").expect("the bytes of a message");
            (text(entry, "desc").to_string(), printed, repaired)
        })
        .collect()
}

/// The first eight bytes of each record, as the entry tells them; the lengths of
/// the second example are those of 001, sections 4.1.2 and 4.1.3.
fn told(description: &str) -> &'static [&'static [u8]] {
    match description.split_once(' ') {
        Some(("Two", _)) => &[b"31410301", b"31410302"],
        Some(("One", _)) => &[b"61120213", b"02630101", b"02630102", b"02630103"],
        _ => panic!("unknown {description}"),
    }
}

#[test]
fn every_repaired_block_holds_the_records_that_its_entry_names() {
    let examples = examples();
    assert_eq!(examples.len(), 4);
    for (description, _, repaired) in examples {
        let records = block(&repaired).expect("a good block");
        let starts: Vec<&[u8]> = records.iter().map(|one| &one.whole[..8]).collect();
        assert_eq!(starts, told(&description), "{description}");
        assert_eq!(6 + 2 + used_by(&records), repaired.len(), "{description}");
    }
}

/// All are printed with bytes lost, so that none is filled by its records.
#[test]
fn no_block_is_good_as_printed() {
    for (description, printed, _) in examples() {
        assert_eq!(block(&printed), None, "{description}");
    }
}

/// The documents load them all for network "00".
#[test]
fn the_repaired_records_make_a_live_set() {
    let mut load = Load::open(0);
    let mut all = Vec::new();
    for (_, _, repaired) in examples() {
        let records = block(&repaired).expect("a good block");
        all.extend(records.clone());
        load.add(records);
    }
    let mut live = Vec::new();
    assert!(close(&mut live, load));
    assert_eq!(live, all);
    assert!(close(&mut live, Load::open(1)));
    assert_eq!(live.len(), all.len() - 6);
}
