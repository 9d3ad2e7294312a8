//! The object calls, proved against second: every input of some kinds, and many
//! at random.

use compare::alike::object as alike;
use compare::seed;
use second::material::object::{random_objects, random_tags, TAGS, TELLING};
use second::material::{every_byte, every_damage, every_string, random_damage, random_room};
use second::object;
use second::random::Random;

/// Lengths on both sides of each change of form, and past the largest.
const LENGTHS: [usize; 13] = [
    0, 1, 126, 127, 128, 129, 254, 255, 256, 257, 65_534, 65_535, 65_536,
];

/// One object of each kind that picking tells apart: one and two bytes of tag,
/// one that is withheld, two of a tag, one without value.
const SMALL_LIST: [u8; 14] = [0x95, 1, 1, 0x9F, 0x27, 1, 2, 0x5A, 1, 3, 0x95, 0, 0x82, 0];

const ROUNDS: usize = 20_000;

/// Picks with exactly the room needed, one byte less, none, and some more.
fn pick_in_every_kind_of_room(tags: &[u8], objects: &[u8]) {
    let needed = object::pick(tags, objects).map_or(8, |picked| picked.len());
    for room in [needed, needed.saturating_sub(1), 0, needed + 9] {
        alike::pick(tags, objects, room);
    }
}

/// Every first two bytes, so every tag, and every start of what follows it over
/// bytes at which the form of a length changes.
#[test]
fn every_header() {
    let mut input = Vec::new();
    for length in 0..=3 {
        every_string(length, &[0x00, 0x01, 0x7F, 0x80, 0x81, 0x82], |tail| {
            every_string(2, &every_byte(), |first_two| {
                input.clear();
                input.extend(first_two);
                input.extend(tail);
                alike::read(&input);
            });
        });
    }
    for length in 0..=1 {
        every_string(length, &every_byte(), alike::read);
    }
}

#[test]
fn every_length_form_of_three_bytes() {
    for tag in [&[0x95][..], &[0x9F, 0x27]] {
        let mut input = [tag, &[0; 3]].concat();
        every_string(3, &every_byte(), |form| {
            input[tag.len()..].copy_from_slice(form);
            alike::read(&input);
        });
    }
}

/// Every form before as many bytes as it tells, one less and one more.
#[test]
fn every_length_with_its_value() {
    let mut input = vec![0x95; 4 + 65_535 + 1];
    for value in 0..=65_535_usize {
        let [.., high, low] = value.to_be_bytes();
        for form in [&[low][..], &[0x81, low], &[0x82, high, low]] {
            let header = 1 + form.len();
            input[1..header].copy_from_slice(form);
            for end in [
                header + value - value.min(1),
                header + value,
                header + value + 1,
            ] {
                alike::read(&input[..end]);
            }
        }
    }
}

#[test]
fn values_of_every_form_are_written_and_read() {
    let value: Vec<u8> = (0..65_536).map(|place| (place % 251) as u8).collect();
    for tag in [&[0x95][..], &[0x9F, 0x27]] {
        for length in LENGTHS {
            let value = &value[..length];
            let written = object::write(tag, value).unwrap_or_default();
            let needed = written.len();
            for room in [needed, needed.saturating_sub(1), 0, needed + 9, 70_000] {
                alike::write(tag, value, room);
            }
            alike::read(&written);
            alike::read(&[&written[..], value].concat());
            alike::read(&written[..needed.saturating_sub(1)]);
            pick_in_every_kind_of_room(tag, &[&[0x82, 0x00], &written[..]].concat());
        }
    }
}

#[test]
fn every_tag_is_written() {
    for length in 0..=2 {
        every_string(length, &every_byte(), |tag| alike::write(tag, &[0x40], 8));
    }
    for length in 3..=4 {
        every_string(length, &TELLING, |tag| alike::write(tag, &[], 8));
    }
}

/// The scope paper, section Numbered refusals of calls, judges the room last:
/// with none at all every other refusal must still come through.
#[test]
fn every_other_refusal_comes_before_the_room() {
    let over = vec![0; 65_536];
    for room in 0..=4 {
        alike::write(&[0x00], &over, room);
        alike::write(&[0x95], &over, room);
        for tags in [&[0x95][..], &[0x95, 0x9F], &[0x95, 0x00]] {
            for objects in [
                &[0x95, 0x00, 0x00][..],
                &[0x95, 0x00, 0x95],
                &[0x95, 0x00, 0x95, 0x81, 0x05],
                &[0x95, 0x00, 0x95, 0x05],
                &[0x95, 0x02, 0x01, 0x01],
            ] {
                alike::pick(tags, objects, room);
            }
        }
    }
}

/// All that can be told apart in a few bytes, tag lists and object lists alike.
#[test]
fn every_short_pick() {
    let letters = [0x00, 0x01, 0x5A, 0x81, 0x9F];
    for tags_length in 0..=3 {
        every_string(tags_length, &letters, |tags| {
            for objects_length in 0..=5 {
                every_string(objects_length, &letters, |objects| {
                    alike::pick(tags, objects, 5);
                });
            }
        });
    }
}

#[test]
fn every_damage_to_a_small_list() {
    let tags = [0x82, 0x9F, 0x27, 0x5A, 0x84, 0x95, 0x95];
    every_damage(&SMALL_LIST, |objects| {
        alike::pick(&tags, objects, 32);
        alike::pick(&[], objects, 32);
    });
    every_damage(&tags, |tags| alike::pick(tags, &SMALL_LIST, 32));
}

/// Each tag by itself, twice, and before each other one.
#[test]
fn every_pair_of_tags() {
    let objects: Vec<u8> = TAGS
        .iter()
        .flat_map(|tag| object::write(tag, tag).expect("the tag is good"))
        .collect();
    for first in TAGS {
        pick_in_every_kind_of_room(first, &objects);
        pick_in_every_kind_of_room(first, &SMALL_LIST);
        for second in TAGS {
            let tags = [first, second].concat();
            pick_in_every_kind_of_room(&tags, &objects);
            pick_in_every_kind_of_room(&tags, &SMALL_LIST);
        }
    }
}

/// From each object's place on, as one walks a list.
#[test]
fn random_lists_are_walked() {
    let mut random = Random::new(seed::told("random_lists_are_walked"));
    for _ in 0..ROUNDS {
        let list = random_objects(&mut random);
        let list = match random.below(2) {
            0 => random_damage(&mut random, &list, &TELLING),
            _ => list,
        };
        let mut rest = &list[..];
        alike::read(rest);
        while let Ok(lengths) = object::read(rest) {
            rest = &rest[lengths.whole..];
            alike::read(rest);
        }
    }
}

#[test]
fn random_picks() {
    let mut random = Random::new(seed::told("random_picks"));
    for _ in 0..ROUNDS {
        let tags = random_tags(&mut random);
        let objects = random_objects(&mut random);
        let needed = object::pick(&tags, &objects).map_or(8, |picked| picked.len());
        let room = random_room(&mut random, needed);
        alike::pick(&tags, &objects, room);
    }
}

#[test]
fn random_damaged_picks() {
    let mut random = Random::new(seed::told("random_damaged_picks"));
    for _ in 0..ROUNDS {
        let tags = random_tags(&mut random);
        let objects = random_objects(&mut random);
        let room = random_room(&mut random, objects.len());
        let damaged = random_damage(&mut random, &objects, &TELLING);
        alike::pick(&tags, &damaged, room);
        let damaged = random_damage(&mut random, &tags, &TELLING);
        alike::pick(&damaged, &objects, room);
    }
}
