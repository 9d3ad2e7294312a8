//! The packets file.

use super::{bytes, counts, text, vectors};
use second::answer::{give, Answer, Outcome};
use second::vectors::Entry;
use second::{by_hand, check, packet};
use std::collections::BTreeMap;

const NAK: [u8; 1] = [0x15];

fn of_kinds(kinds: &[&str]) -> Vec<Entry> {
    let mut entries = vectors().packets;
    entries.retain(|entry| kinds.contains(&text(entry, "kind")));
    entries
}

fn packet_of(entry: &Entry) -> Vec<u8> {
    entry.packet().unwrap_or_else(|why| panic!("{why}"))
}

fn number(entry: &Entry, key: &str) -> Option<u16> {
    let value = bytes_of_digits(entry.field(key)?);
    Some(u16::from_be_bytes(value.try_into().expect("four digits")))
}

fn bytes_of_digits(digits: &str) -> Vec<u8> {
    second::hex::read(digits.as_bytes()).expect("hexadecimal digits")
}

/// What an entry's own fields say the reader must answer. The scope paper,
/// section Packet, is stricter on size than the documents.
fn expected(entry: &Entry) -> Outcome {
    match text(entry, "crc_status") {
        "OK" | "COMPUTED" => match bytes(entry, "payload").expect("a payload") {
            payload if payload.len() <= 2048 => Ok(payload),
            _ => Err(11),
        },
        "DELIBERATELY-WRONG" | "OCR-FAULT" => Err(13),
        "none" => Err(12),
        other => panic!("{}: unknown status {other}", text(entry, "id")),
    }
}

/// Both readers, the second one through a buffer that is exactly long enough.
fn assert_reads(packet: &[u8], expected: &Outcome, id: &str) {
    assert_eq!(&packet::read(packet), expected, "{id}");
    let room = expected.as_ref().map_or(4, Vec::len);
    assert_same_answer(expected.clone(), room, id, |out| {
        by_hand::packet::read(packet, out)
    });
}

fn assert_writes(payload: &[u8], expected: &Outcome, id: &str) {
    assert_eq!(&packet::write(payload), expected, "{id}");
    let room = expected.as_ref().map_or(4, Vec::len);
    assert_same_answer(expected.clone(), room, id, |out| {
        by_hand::packet::write(payload, out)
    });
}

fn assert_same_answer(
    expected: Outcome,
    room: usize,
    id: &str,
    call: impl Fn(&mut [u8]) -> Answer,
) {
    let mut wanted = vec![0xEE; room];
    let mut got = vec![0xEE; room];
    assert_eq!(call(&mut got), give(expected, &mut wanted), "{id}");
    assert_eq!(got, wanted, "{id}");
}

#[test]
fn no_entry_is_missed() {
    let entries = vectors().packets;
    let kinds = [
        ("packet", 15),
        ("derived", 34),
        ("control", 14),
        ("exchange", 4),
        ("crc", 4),
    ];
    let counted = counts(entries.iter().map(|entry| text(entry, "kind")));
    assert_eq!(counted, BTreeMap::from(kinds));
    let statuses = [
        ("OK", 13),
        ("COMPUTED", 31),
        ("DELIBERATELY-WRONG", 6),
        ("OCR-FAULT", 1),
        ("none", 2),
        ("(no field)", 18),
    ];
    let status = |entry| Entry::field(entry, "crc_status").unwrap_or("(no field)");
    let counted = counts(entries.iter().map(status));
    assert_eq!(counted, BTreeMap::from(statuses));
}

#[test]
fn every_packet_reads_as_its_entry_says() {
    let mut answers = BTreeMap::new();
    for entry in of_kinds(&["packet", "derived"]) {
        let expected = expected(&entry);
        assert_reads(&packet_of(&entry), &expected, text(&entry, "id"));
        *answers.entry(expected.err().unwrap_or(0)).or_insert(0) += 1;
    }
    let all = [(0, 39), (11, 1), (12, 2), (13, 7)];
    assert_eq!(answers, BTreeMap::from(all));
}

/// A good packet comes out again as it was. Where the entry's check is wrong,
/// all comes out but the check, which is then the computed one.
#[test]
fn every_payload_is_written_as_its_entry_says() {
    let mut written = 0;
    for entry in of_kinds(&["packet", "derived"]) {
        let Some(payload) = bytes(&entry, "payload") else {
            continue;
        };
        let mut packet = packet_of(&entry);
        let check = number(&entry, "crc_computed").expect("a computed check");
        let place = packet.len() - 2;
        packet[place..].copy_from_slice(&check.to_be_bytes());
        let expected = match payload.len() {
            1..=2048 => Ok(packet),
            _ => Err(11),
        };
        assert_writes(&payload, &expected, text(&entry, "id"));
        written += 1;
    }
    assert_eq!(written, 46);
}

#[test]
fn the_fields_of_every_packet_agree_with_each_other() {
    let mut with_payload = 0;
    let mut printed = 0;
    for entry in of_kinds(&["packet", "derived"]) {
        let id = text(&entry, "id");
        if let Some(payload) = bytes(&entry, "payload") {
            assert_eq!(
                text(&entry, "payload_len"),
                payload.len().to_string(),
                "{id}"
            );
            let computed = number(&entry, "crc_computed");
            assert_eq!(computed, Some(check::check_of(&payload)), "{id}");
            with_payload += 1;
        }
        if let Some(check) = number(&entry, "crc_printed") {
            assert!(packet_of(&entry).ends_with(&check.to_be_bytes()), "{id}");
            printed += 1;
        }
    }
    assert_eq!((with_payload, printed), (46, 15));
}

#[test]
fn every_repaired_packet_reads_and_is_written_back() {
    let mut repaired = 0;
    for entry in of_kinds(&["packet", "derived"]) {
        let Some(packet) = bytes(&entry, "repaired_hex") else {
            continue;
        };
        let id = text(&entry, "id");
        let payload = packet::read(&packet).unwrap_or_else(|no| panic!("{id}: {no}"));
        assert_reads(&packet, &Ok(payload.clone()), id);
        assert_writes(&payload, &Ok(packet), id);
        repaired += 1;
    }
    assert_eq!(repaired, 1);
}

#[test]
fn every_bare_check_is_as_printed() {
    let entries = of_kinds(&["crc"]);
    assert_eq!(entries.len(), 4);
    for entry in entries {
        let id = text(&entry, "id");
        let data = bytes(&entry, "data").expect("data");
        assert_eq!(text(&entry, "data_len"), data.len().to_string(), "{id}");
        let check = Some(check::without_etb(&data));
        assert_eq!(check, number(&entry, "crc_printed"), "{id}");
        assert_eq!(check, number(&entry, "crc_computed"), "{id}");
        assert_eq!(check, Some(by_hand::packet::without_etb(&data)), "{id}");
    }
}

/// A control byte by itself is no packet.
#[test]
fn every_control_byte_is_the_one_named() {
    let entries = of_kinds(&["control"]);
    assert_eq!(entries.len(), 14);
    for entry in entries {
        let byte = match text(&entry, "control") {
            "ACK" => 0x06,
            "NAK" => 0x15,
            "CAN" => 0x18,
            "EOT" => 0x04,
            other => panic!("unknown control byte {other}"),
        };
        assert_eq!(packet_of(&entry), [byte], "{}", text(&entry, "id"));
        assert_reads(&[byte], &Err(12), text(&entry, "id"));
    }
}

/// The other side's next byte tells how a packet was received: NAK for one
/// whose check differs, anything else, or the end, for a good one.
#[test]
fn every_packet_of_an_exchange_reads_as_it_was_received() {
    let entries = of_kinds(&["exchange"]);
    let mut good = 0;
    let mut refused = 0;
    for entry in &entries {
        let id = text(entry, "id");
        let steps = entry.steps().unwrap_or_else(|why| panic!("{why}"));
        for (place, (_, bytes)) in steps.iter().enumerate() {
            let next = steps.get(place + 1).map(|(_, bytes)| bytes.as_slice());
            if bytes.len() == 1 {
                assert_ne!(next, Some(&NAK[..]), "{id}: only packets get NAK");
            } else if next == Some(&NAK) {
                assert_reads(bytes, &Err(13), id);
                refused += 1;
            } else {
                let payload = packet::read(bytes).unwrap_or_else(|no| panic!("{id}: {no}"));
                assert_writes(&payload, &Ok(bytes.clone()), id);
                good += 1;
            }
        }
    }
    assert_eq!((entries.len(), good, refused), (4, 5, 3));
}
