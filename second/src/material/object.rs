//! What matters to the object calls.

use crate::object;
use crate::random::Random;

/// The values that decide how an object reads: those that are no tag or open one
/// of two bytes, and those where the form of a length changes.
pub const TELLING: [u8; 12] = [
    0x00, 0x01, 0x56, 0x5A, 0x5F, 0x7F, 0x80, 0x81, 0x82, 0x95, 0x9F, 0xFF,
];

/// Few tags, so that some come up again and others are missed: all that are
/// withheld, one of two bytes that looks like them, and tags whose bytes could
/// be a length.
pub const TAGS: [&[u8]; 12] = [
    &[0x56],
    &[0x57],
    &[0x5A],
    &[0x5F, 0x5A],
    &[0x70],
    &[0x81],
    &[0x82],
    &[0x95],
    &[0x1F, 0x00],
    &[0x9F, 0x26],
    &[0x9F, 0x27],
    &[0xDF, 0x7F],
];

/// A list of up to eleven tags.
pub fn random_tags(random: &mut Random) -> Vec<u8> {
    let count = random.below(12);
    (0..count)
        .flat_map(|_| random.pick(&TAGS))
        .copied()
        .collect()
}

/// A list of up to eleven objects, most of them small.
pub fn random_objects(random: &mut Random) -> Vec<u8> {
    let count = random.below(12);
    (0..count).flat_map(|_| random_object(random)).collect()
}

fn random_object(random: &mut Random) -> Vec<u8> {
    let length = match random.below(8) {
        0 => 120 + random.below(16),
        1 => 250 + random.below(16),
        _ => random.below(12),
    };
    let value = super::random_bytes(random, length, &TELLING);
    object::write(random.pick(&TAGS), &value).expect("the tag is good and the value short")
}

#[cfg(test)]
mod tests {
    use super::{random_objects, random_tags, TAGS};
    use crate::random::Random;
    use crate::{object, tag};

    #[test]
    fn lists_read_and_hold_every_tag() {
        let mut random = Random::new(1);
        let tags: Vec<u8> = (0..100).flat_map(|_| random_tags(&mut random)).collect();
        let objects: Vec<u8> = (0..100).flat_map(|_| random_objects(&mut random)).collect();
        let tags = tag::list(&tags).expect("tags");
        let objects = object::list(&objects).expect("objects");
        for tag in TAGS {
            assert!(tags.contains(&tag), "{tag:02X?}");
            assert!(objects.iter().any(|object| object.tag == tag), "{tag:02X?}");
        }
    }
}
