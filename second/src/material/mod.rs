//! Inputs for trying the calls out: byte strings and damaged input, every one of
//! a kind or some at random.

use crate::random::Random;

pub mod command;
pub mod history;
pub mod limits;
pub mod message;
pub mod object;
pub mod packet;
pub mod table;
pub mod traffic;

/// All 256 byte values.
pub fn every_byte() -> Vec<u8> {
    (0..=255).collect()
}

/// Hands out every string of that length over the letters.
pub fn every_string(length: usize, letters: &[u8], mut each: impl FnMut(&[u8])) {
    let mut string = vec![0; length];
    for number in 0..letters.len().pow(length as u32) {
        let mut rest = number;
        for place in &mut string {
            *place = letters[rest % letters.len()];
            rest /= letters.len();
        }
        each(&string);
    }
}

/// Hands out every start of the input, and every input that differs from it by
/// one byte changed, put in or taken out.
pub fn every_damage(input: &[u8], mut each: impl FnMut(&[u8])) {
    for place in 0..input.len() {
        each(&input[..place]);
        let mut without = input.to_vec();
        without.remove(place);
        each(&without);
    }
    for byte in 0..=255 {
        for place in 0..=input.len() {
            let mut with = input.to_vec();
            with.insert(place, byte);
            each(&with);
        }
        for place in (0..input.len()).filter(|&place| input[place] != byte) {
            let mut changed = input.to_vec();
            changed[place] = byte;
            each(&changed);
        }
    }
}

/// Bytes of which a share, itself drawn, is telling: input with hardly any
/// telling byte comes up as well as one of almost nothing else.
pub fn random_bytes(random: &mut Random, length: usize, telling: &[u8]) -> Vec<u8> {
    let share = random.below(9);
    (0..length)
        .map(|_| match random.below(8) < share {
            true => random.pick(telling),
            false => random.byte(),
        })
        .collect()
}

/// The input with one to three damages at random places.
pub fn random_damage(random: &mut Random, input: &[u8], telling: &[u8]) -> Vec<u8> {
    let mut damaged = input.to_vec();
    for _ in 0..1 + random.below(3) {
        let place = random.below(damaged.len() + 1);
        let byte = match random.below(2) {
            0 => random.pick(telling),
            _ => random.byte(),
        };
        match random.below(5) {
            0 => damaged.insert(place, byte),
            1 => damaged.truncate(place),
            2 => damaged.extend_from_within(place..),
            3 if place < damaged.len() => drop(damaged.remove(place)),
            _ if place < damaged.len() => damaged[place] = byte,
            _ => damaged.push(byte),
        }
    }
    damaged
}

/// Exactly the room needed, one byte less, none, or some more.
pub fn random_room(random: &mut Random, needed: usize) -> usize {
    match random.below(4) {
        0 => needed,
        1 => needed.saturating_sub(1),
        2 => 0,
        _ => needed + 1 + random.below(64),
    }
}

#[cfg(test)]
mod tests {
    use super::{every_damage, every_string};
    use std::collections::HashSet;

    #[test]
    fn every_string_comes_once() {
        let mut seen = HashSet::new();
        every_string(3, b"abcd", |string| assert!(seen.insert(string.to_vec())));
        assert_eq!(seen.len(), 64);
        let mut empty = 0;
        every_string(0, b"abcd", |string| empty += 1 + string.len());
        assert_eq!(empty, 1);
    }

    #[test]
    fn every_damage_is_one_and_all_are_there() {
        let packet = [1, 2, 3];
        let mut count = 0;
        every_damage(&packet, |damaged| {
            assert_ne!(damaged, packet);
            count += 1;
        });
        assert_eq!(count, 3 + 3 + 256 * 4 + 255 * 3);
    }
}
