//! The message calls of the stored script.

use super::{counting, fitting, Script, ROOM_OF_REFUSED};
use crate::material::message::parameter_of;
use crate::message::{self, framed, head_length};
use crate::parameter;
use crate::script::shown;
use crate::vectors::Entry;
use std::collections::HashMap;

const CEX: &[u8] = b"CEX";
/// The scope paper's samples of a command and of a response.
const CEX_SAMPLE: &[u8] = b"CEX010\x00\x06\x00\x06010000";
const MNU_SAMPLE: &[u8] = b"MNU000006\x80\x4D\x00\x0202";

/// A parameter without data.
const SMALL: &[u8] = &[0, 1, 0, 0];

impl Script {
    fn read_message(&mut self, room: usize, response: bool, message: &[u8]) {
        let response = u8::from(response);
        self.line(&format!("M {room} {response} {}", shown(message)));
    }

    fn write_message(&mut self, room: usize, response: bool, head: &[u8], list: &[u8]) {
        let (response, head) = (u8::from(response), shown(head));
        self.line(&format!("L {room} {response} {head} {}", shown(list)));
    }

    fn find(&mut self, number: u16, n: usize, list: &[u8]) {
        self.line(&format!("F {number} {n} {}", shown(list)));
    }

    /// A read with exactly the room that the list needs.
    fn read_message_fitting(&mut self, response: bool, message: &[u8]) {
        let room = fitting(&message::read(message, response));
        self.read_message(room, response, message);
    }

    /// A write with exactly the room that the message needs.
    fn write_message_fitting(&mut self, response: bool, head: &[u8], list: &[u8]) {
        let room = fitting(&message::write(head, response, list));
        self.write_message(room, response, head, list);
    }

    /// A read and, where it comes to a list, the write that undoes it, and each
    /// parameter looked for.
    fn there_and_back(&mut self, response: bool, message: &[u8]) {
        self.read_message_fitting(response, message);
        if let Ok(list) = message::read(message, response) {
            self.write_message_fitting(response, &message[..head_length(response)], &list);
            self.find_each(&list);
        }
    }

    fn find_each(&mut self, list: &[u8]) {
        let mut before = Vec::new();
        for parameter in parameter::list(list).unwrap_or_default() {
            before.push(parameter.number);
            let n = before.iter().filter(|one| **one == parameter.number);
            self.find(parameter.number, n.count(), list);
        }
    }
}

/// Every entry of the messages file: as it is printed, and repaired where it is
/// printed wrongly and the repair is sure. Many examples stand in both documents
/// alike; the second time they are only named, to keep the script short.
pub fn examples(script: &mut Script, entries: &[Entry]) -> Result<(), String> {
    let mut called = HashMap::new();
    for entry in entries {
        let id = entry.text("id")?;
        let response = entry.response()?;
        let printed = (id.to_string(), entry.hex()?);
        let repaired = entry.bytes("repaired_hex")?;
        let repaired = repaired.map(|message| (format!("{id} repaired"), message));
        for (name, message) in [printed].into_iter().chain(repaired) {
            if let Some(before) = called.get(&(response, message.clone())) {
                script.comment(&format!("{name}, as {before}"));
                continue;
            }
            script.comment(&name);
            script.there_and_back(response, &message);
            called.insert((response, message), name);
        }
    }
    Ok(())
}

/// The scope paper's samples, and input at and past every limit.
pub fn samples(script: &mut Script) {
    script.comment("sample CEX");
    script.there_and_back(false, CEX_SAMPLE);
    script.comment("sample MNU");
    script.there_and_back(true, MNU_SAMPLE);
    limits(script);
    bad_heads(script);
    bad_blocks(script);
    crossings(script);
    finding(script);
    rooms(script);
    readers_order(script);
    writers_order(script);
}

/// Parameters of number 1 with data of these lengths.
fn of_lengths<const COUNT: usize>(lengths: [usize; COUNT]) -> [Vec<u8>; COUNT] {
    lengths.map(|length| parameter_of(1, &counting(length)))
}

fn limits(script: &mut Script) {
    for (name, list) in [
        ("data of 995", of_lengths([995]).concat()),
        ("data of 996", of_lengths([996]).concat()),
        ("block of 999", of_lengths([500, 491]).concat()),
        ("block of one over 999", of_lengths([500, 492]).concat()),
        (
            "block of 999 and a small one",
            of_lengths([991, 0, 0]).concat(),
        ),
        ("block left for good", of_lengths([5, 990, 0]).concat()),
        ("message of 2048", of_lengths([995, 995, 34]).concat()),
        ("message of 2049", of_lengths([995, 995, 35]).concat()),
    ] {
        script.comment(&format!("{name}, written"));
        script.write_message_fitting(false, CEX, &list);
    }
    for (name, blocks) in [
        ("block of 999", &of_lengths([995])[..]),
        ("blocks not filled", &of_lengths([0, 1, 0])),
        ("message of 2048", &of_lengths([995, 995, 34])),
        ("message of 2049", &of_lengths([995, 995, 35])),
    ] {
        script.comment(&format!("{name}, read"));
        script.read_message_fitting(false, &framed(CEX, blocks));
    }
    script.comment("response of 2048 and of 2049, written");
    script.write_message_fitting(true, b"CEX000", &of_lengths([995, 995, 31]).concat());
    script.write_message_fitting(true, b"CEX000", &of_lengths([995, 995, 32]).concat());
}

fn bad_heads(script: &mut Script) {
    for (name, response, head) in [
        ("no head", false, &b""[..]),
        ("two name bytes", false, b"OP"),
        ("name byte 40", false, b"O@N"),
        ("name byte 5B", false, b"OP["),
        ("lower-case name", false, b"oPN"),
        ("three bytes of a response", true, b"OPN"),
        ("five bytes of a response", true, b"OPN00"),
        ("status byte 2F", true, b"OPN/00"),
        ("status byte 3A", true, b"OPN00:"),
        ("status of a command", false, b"OPN000"),
    ] {
        script.comment(&format!("head: {name}"));
        script.read_message(ROOM_OF_REFUSED, response, head);
        script.write_message(ROOM_OF_REFUSED, response, head, &[]);
    }
    script.comment("head: seven bytes of a response");
    script.write_message(ROOM_OF_REFUSED, true, b"OPN0000", &[]);
    script.comment("status 999 and a block");
    script.there_and_back(true, &framed(b"AZA999", &of_lengths([1])));
}

fn bad_blocks(script: &mut Script) {
    for (name, rest) in [
        ("one digit", &b"0"[..]),
        ("two digits", b"00"),
        ("length 000", b"000"),
        ("length 000 behind a block", b"004\x00\x01\x00\x00000"),
        ("sign", b"+04\x00\x01\x00\x00"),
        ("space", b" 04\x00\x01\x00\x00"),
        ("byte 2F", b"00/\x00\x01\x00\x00"),
        ("byte 3A", b":04\x00\x01\x00\x00"),
        ("one byte short", b"004\x00\x01\x00"),
        ("nothing behind the length", b"004"),
        ("one byte over", b"004\x00\x01\x00\x00\x00"),
        ("length 999 of 4", b"999\x00\x01\x00\x00"),
    ] {
        script.comment(&format!("block: {name}"));
        script.read_message(ROOM_OF_REFUSED, false, &[CEX, rest].concat());
    }
}

/// Headers and data that go past their block or list.
fn crossings(script: &mut Script) {
    let whole = parameter_of(1, b"abc");
    for place in 1..whole.len() {
        let (left, right) = whole.split_at(place);
        script.comment(&format!("parameter that crosses a block after {place}"));
        let blocks = [left.to_vec(), right.to_vec()];
        script.read_message(ROOM_OF_REFUSED, false, &framed(CEX, &blocks));
        script.comment(&format!("list that breaks off after {place}"));
        script.read_message(ROOM_OF_REFUSED, false, &framed(CEX, &[left.to_vec()]));
        script.write_message(ROOM_OF_REFUSED, false, CEX, left);
        script.find(1, 1, left);
    }
    script.comment("data of 996 in a block of 999");
    let short = of_lengths([996]).concat()[..999].to_vec();
    script.read_message(ROOM_OF_REFUSED, false, &framed(CEX, &[short]));
}

fn finding(script: &mut Script) {
    let pieces = [
        parameter_of(0x0106, b"a"),
        parameter_of(0x0006, b""),
        parameter_of(0x0106, b"bc"),
        parameter_of(0x0600, b"d"),
    ];
    let list = pieces.concat();
    for (number, last) in [(0x0106, 2), (0x0006, 1), (0x0600, 1), (0x0601, 0)] {
        for n in 0..=last + 1 {
            script.comment(&format!("number {number:04X}, n {n} of {last}"));
            script.find(number, n, &list);
        }
    }
    for (number, n) in [(0, 1), (u16::MAX, 1), (0x0106, 99_999)] {
        script.comment(&format!("number {number:04X}, n {n}"));
        script.find(number, n, &list);
    }
    script.comment("nothing to find in");
    script.find(1, 1, &[]);
    script.comment("data over 995 is found");
    script.find(1, 1, &of_lengths([996]).concat());
    script.comment("21 before 24, a good one before the bad place");
    script.find(0x0106, 1, &list[..list.len() - 1]);
    script.comment("21 before 24, n 0");
    script.find(0x0106, 0, &list[..list.len() - 1]);
}

fn rooms(script: &mut Script) {
    let blocks = [SMALL.to_vec(), parameter_of(2, b"ab")];
    let list = blocks.concat();
    let message = framed(CEX, &blocks);
    let written = framed(CEX, std::slice::from_ref(&list));
    for (name, short, spare) in [("exact", 0, 0), ("one short", 1, 0), ("to spare", 0, 3)] {
        script.comment(&format!("message, room {name}"));
        script.read_message(list.len() - short + spare, false, &message);
        script.write_message(written.len() - short + spare, false, CEX, &list);
    }
    script.comment("message, no room");
    script.read_message(0, false, &message);
    script.write_message(0, false, CEX, &list);
    script.comment("no list, no room");
    script.read_message(0, false, b"OPN");
    script.write_message(2, false, b"OPN", &[]);
}

/// Each refusal together with those named after it in the scope paper, section
/// Numbered refusals of calls.
fn readers_order(script: &mut Script) {
    script.comment("11 before 20");
    script.read_message(0, false, &counting(message::LARGEST + 1));
    script.comment("20 before 21, name");
    script.read_message(0, false, b"cEX002\x00\x01");
    script.comment("20 before 21, a later block");
    script.read_message(0, false, b"CEX002\x00\x01000");
    script.comment("20 before 1");
    script.read_message(0, false, b"CEX004\x00\x01\x00\x00003");
    script.comment("21 before 1, a block before a good one");
    script.read_message(0, false, b"CEX002\x00\x01004\x00\x01\x00\x00");
    script.comment("21 before 1, a block behind a good one");
    script.read_message(0, false, b"CEX004\x00\x01\x00\x00001\x00");
}

fn writers_order(script: &mut Script) {
    let over = of_lengths([996]).concat();
    let cut = [&over[..], &[0]].concat();
    let all = of_lengths([995, 995, 996]).concat();
    script.comment("20 before 21 and 22, writer");
    script.write_message(0, false, b"CEx", &cut);
    script.comment("21 before 22, writer");
    script.write_message(0, false, CEX, &cut);
    script.comment("22 before 23, writer");
    script.write_message(0, false, CEX, &all);
    script.comment("22 before 1, writer");
    script.write_message(0, false, CEX, &over);
    script.comment("23 before 1, writer");
    script.write_message(0, false, CEX, &of_lengths([995, 995, 35]).concat());
    script.comment("21 before 23, writer");
    script.write_message(0, false, CEX, &[&SMALL.repeat(600)[..], &[0]].concat());
}
