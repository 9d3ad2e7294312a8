//! The packet calls of the stored script.

use super::{counting, fitting, Script, ROOM_OF_REFUSED};
use crate::packet::{self, framed, LARGEST_PAYLOAD};
use crate::script::{shown, LARGEST};
use crate::vectors::Entry;

const OPN: &[u8] = b"OPN";

impl Script {
    fn write(&mut self, room: usize, payload: &[u8]) {
        self.line(&format!("W {room} {}", shown(payload)));
    }

    fn read(&mut self, room: usize, bytes: &[u8]) {
        self.line(&format!("R {room} {}", shown(bytes)));
    }

    /// A write with exactly the room that the packet needs.
    fn write_fitting(&mut self, payload: &[u8]) {
        self.write(fitting(&packet::write(payload)), payload);
    }

    /// A read with exactly the room that the payload needs.
    fn read_fitting(&mut self, bytes: &[u8]) {
        self.read(fitting(&packet::read(bytes)), bytes);
    }
}

/// Every entry of the packets file.
pub fn examples(script: &mut Script, entries: &[Entry]) -> Result<(), String> {
    for entry in entries {
        match entry.text("kind")? {
            "packet" | "derived" => example(script, entry)?,
            "exchange" => exchange(script, entry)?,
            "control" | "crc" => {}
            other => return Err(format!("{}: kind {other}", entry.text("id")?)),
        }
    }
    Ok(())
}

/// The samples that the scope paper, section Sample line traffic, leaves
/// unmarked, and bad input of every kind.
pub fn samples(script: &mut Script) {
    sizes(script);
    bad_frames(script);
    bad_pairs(script);
    cuts(script);
    rooms(script);
    order(script);
}

fn example(script: &mut Script, entry: &Entry) -> Result<(), String> {
    let id = entry.text("id")?;
    script.comment(id);
    script.read_fitting(&entry.packet()?);
    if let Some(payload) = entry.bytes("payload")? {
        script.write_fitting(&payload);
    }
    if let Some(repaired) = entry.bytes("repaired_hex")? {
        script.comment(&format!("{id} repaired"));
        script.read_fitting(&repaired);
        if let Ok(payload) = packet::read(&repaired) {
            script.write_fitting(&payload);
        }
    }
    Ok(())
}

fn exchange(script: &mut Script, entry: &Entry) -> Result<(), String> {
    for (place, (sender, bytes)) in entry.steps()?.iter().enumerate() {
        if bytes.starts_with(&[packet::SYN]) {
            let id = entry.text("id")?;
            script.comment(&format!("{id} step {} {sender}", place + 1));
            script.read_fitting(bytes);
        }
    }
    Ok(())
}

fn sizes(script: &mut Script) {
    let most = counting(LARGEST_PAYLOAD);
    let over = counting(LARGEST_PAYLOAD + 1);
    script.comment("payload of 2048");
    script.write_fitting(&most);
    script.read_fitting(&framed(&most));
    script.comment("payload of 2049");
    script.write_fitting(&over);
    script.read_fitting(&framed(&over));
    let pairs = vec![packet::DC3; LARGEST_PAYLOAD];
    script.comment("payload of 2048, all pairs");
    script.write_fitting(&pairs);
    script.read_fitting(&framed(&pairs));
    script.comment("largest room and input");
    script.write(LARGEST, &counting(LARGEST));
    script.read(LARGEST, &framed(&vec![0; LARGEST - 4]));
}

fn bad_frames(script: &mut Script) {
    let opn = framed(OPN);
    let reads: [(&str, &[&[u8]]); 8] = [
        ("first byte not SYN", &[&[0x15], &opn[1..]]),
        ("ACK before SYN", &[&[0x06], &opn]),
        ("SYN twice", &[&[0x16], &opn]),
        ("raw SYN inside", &[&opn[..2], &[0x16], &opn[2..]]),
        ("raw SYN before ETB", &[&opn[..4], &[0x16], &opn[4..]]),
        ("no ETB", &[&opn[..4], &opn[5..]]),
        ("raw ETB inside", &[&opn[..2], &[0x17], &opn[2..]]),
        ("a byte too many", &[&opn, &[0x00]]),
    ];
    script.comment("nothing to write");
    script.write(ROOM_OF_REFUSED, &[]);
    script.comment("nothing to read");
    script.read(ROOM_OF_REFUSED, &[]);
    script.comment("empty payload");
    script.read(ROOM_OF_REFUSED, &framed(&[]));
    for (name, pieces) in reads {
        script.comment(name);
        script.read(ROOM_OF_REFUSED, &pieces.concat());
    }
    script.comment("second packet behind the first");
    script.read(ROOM_OF_REFUSED, &[&opn[..], &opn].concat());
}

fn bad_pairs(script: &mut Script) {
    let opn = framed(OPN);
    for second in [0x00, 0x13, 0x16, 0x17, 0x32, 0x34, 0x35, 0x38, 0xFF] {
        script.comment(&format!("pair 13 {second:02X}"));
        let pieces = [&opn[..2], &[0x13, second], &opn[2..]];
        script.read(ROOM_OF_REFUSED, &pieces.concat());
    }
    script.comment("13 before ETB");
    let pieces = [&opn[..4], &[0x13], &opn[4..]];
    script.read(ROOM_OF_REFUSED, &pieces.concat());
    script.comment("13 at the end");
    let pieces = [&opn[..4], &[0x13]];
    script.read(ROOM_OF_REFUSED, &pieces.concat());
    script.comment("second bytes of pairs as plain data");
    script.read_fitting(&framed(&[0x33, 0x36, 0x37]));
    script.comment("13 33 and then 33");
    script.read_fitting(&framed(&[0x13, 0x33]));
}

fn cuts(script: &mut Script) {
    let opn = framed(OPN);
    for length in 0..opn.len() {
        script.comment(&format!("OPN cut to {length}"));
        script.read(ROOM_OF_REFUSED, &opn[..length]);
    }
}

fn rooms(script: &mut Script) {
    for payload in [OPN, &[packet::SYN], &counting(LARGEST_PAYLOAD)] {
        let packet = framed(payload);
        let length = payload.len();
        script.comment(&format!("payload of {length}, no room"));
        script.write(0, payload);
        script.read(0, &packet);
        script.comment(&format!("payload of {length}, room one short"));
        script.write(packet.len() - 1, payload);
        script.read(length - 1, &packet);
        script.comment(&format!("payload of {length}, room to spare"));
        script.write(packet.len() + 3, payload);
        script.read(length + 3, &packet);
    }
}

/// Each refusal together with those named after it in the scope paper, section
/// Numbered refusals of calls.
fn order(script: &mut Script) {
    let over = counting(LARGEST_PAYLOAD + 1);
    script.comment("10 before 1, writer");
    script.write(0, &[]);
    script.comment("11 before 1, writer");
    script.write(0, &over);
    let empty = wrong_check(framed(&[]));
    let over = wrong_check(framed(&over));
    let (start, end) = over.split_at(1);
    script.comment("12 before 10 and 13");
    script.read(0, &[&empty[..], &[0x00]].concat());
    script.comment("12 before 11 and 13, bad pair");
    script.read(0, &[start, &[0x13, 0x00], end].concat());
    script.comment("12 before 11 and 13, a byte too many");
    script.read(0, &[start, end, &[0x00]].concat());
    script.comment("12 before 13, raw SYN");
    script.read(0, &[0x16, 0x4F, 0x16, 0x17, 0x00, 0x00]);
    script.comment("10 before 13 and 1");
    script.read(0, &empty);
    script.comment("11 before 13 and 1");
    script.read(0, &over);
    script.comment("13 before 1");
    script.read(0, &wrong_check(framed(OPN)));
}

fn wrong_check(mut packet: Vec<u8>) -> Vec<u8> {
    let last = packet.len() - 1;
    packet[last] ^= 0x01;
    packet
}
