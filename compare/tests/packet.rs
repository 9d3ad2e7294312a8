//! The packet calls, proved against second: every input of some kinds, and many
//! at random.

use compare::alike::packet as alike;
use compare::seed;
use second::material::packet::{random_length, TELLING};
use second::material::{every_byte, every_damage, every_string};
use second::material::{random_bytes, random_damage, random_room};
use second::packet::framed;
use second::random::Random;

/// The payloads of the scope paper, section Sample line traffic.
const SAMPLES: [&[u8]; 2] = [b"OPN", &[0x16]];

const ROUNDS: usize = 20_000;

#[test]
fn every_payload_of_up_to_two_bytes() {
    for length in 0..=2 {
        every_string(length, &every_byte(), |payload| {
            alike::there_and_back(payload);
            alike::check_of(payload);
        });
    }
}

#[test]
fn every_telling_payload_of_up_to_five_bytes() {
    for length in 3..=5 {
        every_string(length, &TELLING, alike::there_and_back);
    }
}

#[test]
fn every_string_of_up_to_two_bytes_is_read() {
    for length in 0..=2 {
        every_string(length, &every_byte(), |bytes| alike::read(bytes, 4));
    }
}

#[test]
fn every_telling_string_of_up_to_six_bytes_is_read() {
    for length in 3..=6 {
        every_string(length, &TELLING, |bytes| alike::read(bytes, 4));
    }
}

#[test]
fn every_damage_to_the_samples() {
    for payload in SAMPLES {
        every_damage(&framed(payload), |damaged| {
            alike::read(damaged, damaged.len());
        });
    }
}

#[test]
fn every_room_for_the_samples() {
    for payload in SAMPLES {
        let packet = framed(payload);
        for room in 0..=packet.len() + 2 {
            alike::write(payload, room);
        }
        for room in 0..=payload.len() + 2 {
            alike::read(&packet, room);
        }
    }
}

/// The scope paper, section Numbered refusals of calls, judges the room last:
/// with none at all every other refusal must still come through.
#[test]
fn every_other_refusal_comes_before_the_room() {
    let over = vec![0x4F; 2049];
    let reads = [
        vec![0x16, 0x4F, 0x16, 0x17, 0, 0],
        framed(&[]),
        framed(&over),
        vec![0x16, 0x4F, 0x17, 0, 0],
    ];
    for room in 0..=4 {
        alike::write(&[], room);
        alike::write(&over, room);
        for bytes in &reads {
            alike::read(bytes, room);
        }
    }
}

#[test]
fn random_payloads() {
    let mut random = Random::new(seed::told("random_payloads"));
    for _ in 0..ROUNDS {
        let length = random_length(&mut random);
        let payload = random_bytes(&mut random, length, &TELLING);
        let packet = framed(&payload);
        alike::write(&payload, random_room(&mut random, packet.len()));
        alike::read(&packet, random_room(&mut random, length));
        alike::check_of(&payload);
    }
}

#[test]
fn random_damaged_packets() {
    let mut random = Random::new(seed::told("random_damaged_packets"));
    for _ in 0..ROUNDS {
        let length = random_length(&mut random);
        let payload = random_bytes(&mut random, length, &TELLING);
        let damaged = random_damage(&mut random, &framed(&payload), &TELLING);
        alike::read(&damaged, random_room(&mut random, length));
    }
}
