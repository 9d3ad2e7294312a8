//! The message calls, proved against second: every input of some kinds, and many
//! at random.

use compare::alike::message as alike;
use compare::seed;
use second::material::message::{parameter_of, NUMBERS, TELLING};
use second::material::message::{random_blocks, random_head, random_message, random_parameters};
use second::material::{every_damage, every_string, random_damage, random_room};
use second::message::{self, framed};
use second::parameter;
use second::random::Random;

const COMMAND: u8 = 0;
const RESPONSE: u8 = 1;
const BOTH: [u8; 2] = [COMMAND, RESPONSE];

/// The messages of the scope paper, section Sample line traffic.
const CEX: &[u8] = b"CEX010\x00\x06\x00\x06010000";
const MNU: &[u8] = b"MNU000006\x80\x4D\x00\x0202";
/// Two blocks, the first with two parameters; a number that comes twice.
const TWO_BLOCKS: &[u8] = b"CEX009\x00\x06\x00\x01a\x00\x07\x00\x00006\x00\x06\x00\x02bc";

const ROUNDS: usize = 10_000;

/// A parameter of number 1.
fn of_length(length: usize) -> Vec<u8> {
    parameter_of(1, &vec![b'x'; length])
}

fn of_lengths(lengths: &[usize]) -> Vec<u8> {
    lengths.iter().copied().flat_map(of_length).collect()
}

fn head_of(response: u8) -> &'static [u8] {
    match response {
        COMMAND => b"CEX",
        _ => b"CEX000",
    }
}

/// Writes a list with exactly the room that its message needs, if any.
fn write_fitting(head: &[u8], response: u8, list: &[u8]) {
    let written = message::write(head, response != 0, list);
    alike::write(
        head,
        response,
        list,
        written.map_or(8, |message| message.len()),
    );
}

/// Every number of the list and some others, each for every turn that there is
/// and one more, turn 0 and the largest.
fn find_all(list: &[u8], numbers: &[u16], room: usize) {
    for number in numbers {
        let parameters = parameter::list(list).unwrap_or_default();
        let alike_in_list = parameters.iter().filter(|one| one.number == *number);
        for n in (0..=alike_in_list.count() + 1).chain([usize::MAX]) {
            alike::find(list, *number, n, room);
        }
    }
}

#[test]
fn every_short_string_is_read() {
    for length in 0..=7 {
        every_string(length, b"A[01\x00", |message| {
            for response in BOTH {
                alike::read(message, response, 4);
            }
        });
    }
}

#[test]
fn every_short_string_behind_a_head_is_read() {
    for response in BOTH {
        let head = head_of(response);
        let mut message = head.to_vec();
        for length in 0..=8 {
            every_string(length, b"045\x00\x01", |rest| {
                message.truncate(head.len());
                message.extend(rest);
                alike::read(&message, response, 5);
            });
        }
    }
}

#[test]
fn every_short_list_is_written_and_looked_through() {
    let numbers = [0x0000, 0x0001, 0x0100, 0x0101];
    for length in 0..=8 {
        every_string(length, &[0, 1, 2], |list| {
            write_fitting(b"CEX", COMMAND, list);
            write_fitting(b"CEX000", RESPONSE, list);
            find_all(list, &numbers, 4);
        });
    }
}

/// Any byte in any of a message's places, and any of them gone or put in.
#[test]
fn every_damage_to_small_messages() {
    for message in [&b"OPN"[..], b"OPN013", CEX, MNU, TWO_BLOCKS] {
        every_damage(message, |damaged| {
            for response in BOTH {
                alike::read(damaged, response, damaged.len());
            }
        });
    }
}

#[test]
fn every_damage_to_small_lists() {
    for list in [&CEX[6..], &MNU[9..], &TWO_BLOCKS[6..15]] {
        every_damage(list, |damaged| {
            write_fitting(b"CEX", COMMAND, damaged);
            find_all(damaged, &[0x0006, 0x0007, 0x804D], 8);
        });
    }
}

#[test]
fn every_damage_to_heads() {
    for response in BOTH {
        every_damage(head_of(response), |head| {
            write_fitting(head, response, &[]);
            write_fitting(head, response, &CEX[6..]);
            alike::write(head, 1 - response, &CEX[6..], 32);
        });
    }
}

/// The library takes any number but 0 for a response.
#[test]
fn every_way_to_say_which_it_is() {
    for response in 0..=255 {
        for message in [CEX, MNU, b"OPN", b"OPN000"] {
            alike::read(message, response, 16);
        }
        for head in [&b"OPN"[..], b"OPN000"] {
            alike::write(head, response, &MNU[9..], 16);
        }
    }
}

#[test]
fn every_room_for_the_samples() {
    let samples = [(CEX, COMMAND), (MNU, RESPONSE), (TWO_BLOCKS, COMMAND)];
    for (message, response) in samples {
        let list = message::read(message, response != 0).expect("a sample reads");
        for room in 0..=message.len() + 2 {
            alike::read(message, response, room);
            alike::write(head_of(response), response, &list, room);
            find_all(&list, &[0x0006, 0x0007, 0x804D], room);
        }
    }
}

/// The scope paper, section Numbered refusals of calls, judges the room last:
/// with none at all every other refusal must still come through.
#[test]
fn every_other_refusal_comes_before_the_room() {
    let cut = [of_length(996), vec![0]].concat();
    for room in 0..=4 {
        alike::read(&[0x41; 2049], COMMAND, room);
        alike::read(b"CEX002\x00\x01000", COMMAND, room);
        alike::read(b"CEX002\x00\x01", COMMAND, room);
        alike::write(b"CEx", COMMAND, &cut, room);
        alike::write(b"CEX", COMMAND, &cut, room);
        alike::write(b"CEX", COMMAND, &of_lengths(&[995, 995, 996]), room);
        alike::write(b"CEX", COMMAND, &of_lengths(&[995, 995, 995]), room);
        alike::find(&cut, 1, 1, room);
        alike::find(&of_length(3), 1, 2, room);
        alike::find(&of_length(3), 1, 1, room);
    }
}

/// Parameters about as long as a block, alone and next to others, so that the
/// next block is opened or not by one byte.
#[test]
fn every_length_about_that_of_a_block() {
    for length in 985..=1000 {
        for other in 0..=10 {
            for lengths in [
                &[length][..],
                &[length, other],
                &[other, length],
                &[length, other, other],
                &[other, length, other],
                &[length - 500 + other, 496],
            ] {
                let list = of_lengths(lengths);
                write_fitting(b"CEX", COMMAND, &list);
                alike::find(&list, 1, lengths.len(), list.len());
            }
        }
    }
}

/// Lists whose messages are about as long as a message may be.
#[test]
fn every_length_about_that_of_a_message() {
    for response in BOTH {
        for last in 0..=60 {
            let list = of_lengths(&[995, 995, last]);
            write_fitting(head_of(response), response, &list);
            let blocks = [995, 995, last].map(of_length);
            let message = framed(head_of(response), &blocks);
            alike::read(&message, response, list.len());
        }
    }
}

/// Only the list's own end ends a search: data may be longer than a block holds.
#[test]
fn long_data_is_found() {
    for length in [996, 4096, 65_534, 65_535] {
        let list = [of_length(length), of_length(2)].concat();
        for room in [length, length - 1, 0, length + 9] {
            alike::find(&list, 1, 1, room);
            alike::find(&list, 1, 2, room);
            alike::find(&list[..list.len() - 1], 1, 1, room);
        }
    }
}

#[test]
fn messages_of_every_size() {
    let mut random = Random::new(seed::told("messages_of_every_size"));
    for size in 0..=2100 {
        for response in BOTH {
            let message = random_message(&mut random, size, response != 0);
            alike::read(&message, response, size);
            alike::read(&message, 1 - response, size);
            let room = random_room(&mut random, size);
            let damaged = random_damage(&mut random, &message, &TELLING);
            alike::read(&damaged, response, room);
        }
    }
}

#[test]
fn random_lists() {
    let mut random = Random::new(seed::told("random_lists"));
    for _ in 0..ROUNDS {
        let response = random.pick(&BOTH);
        let parameters = random_parameters(&mut random);
        let list = parameters.concat();
        let head = random_head(&mut random, response != 0);
        let needed = message::write(&head, response != 0, &list).map_or(8, |one| one.len());
        let room = random_room(&mut random, needed);
        alike::write(&head, response, &list, room);
        let blocks = random_blocks(&mut random, &parameters);
        let room = random_room(&mut random, list.len());
        alike::read(&framed(&head, &blocks), response, room);
    }
}

#[test]
fn random_damaged_lists_and_messages() {
    let mut random = Random::new(seed::told("random_damaged_lists_and_messages"));
    for _ in 0..ROUNDS {
        let response = random.pick(&BOTH);
        let parameters = random_parameters(&mut random);
        let damaged = random_damage(&mut random, &parameters.concat(), &TELLING);
        let head = head_of(response);
        alike::write(head, response, &damaged, random_room(&mut random, 2048));
        let blocks = random_blocks(&mut random, &parameters);
        let damaged = random_damage(&mut random, &framed(head, &blocks), &TELLING);
        alike::read(&damaged, response, random_room(&mut random, damaged.len()));
    }
}

#[test]
fn random_searches() {
    let mut random = Random::new(seed::told("random_searches"));
    for _ in 0..ROUNDS / 10 {
        let list = random_parameters(&mut random).concat();
        let room = random_room(&mut random, 16);
        find_all(&list, &NUMBERS, room);
        let damaged = random_damage(&mut random, &list, &TELLING);
        find_all(&damaged, &NUMBERS, 1000);
    }
}
