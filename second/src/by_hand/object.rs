//! The object reader, and picking by nested loops over the lent lists.

use crate::answer::{Answer, TOO_LITTLE_ROOM};
use crate::object::{Lengths, LENGTH_WRONG, VALUE_PAST_THE_END};
use crate::tag::TAG_WRONG;

/// As `object::read`.
pub fn read(input: &[u8]) -> Result<Lengths, u8> {
    let tag = tag_length(input);
    if tag == 0 {
        return Err(TAG_WRONG);
    }
    let form = &input[tag..];
    if form.is_empty() {
        return Err(LENGTH_WRONG);
    }
    let (size, value) = if form[0] < 0x80 {
        (1, usize::from(form[0]))
    } else if form[0] == 0x81 && form.len() > 1 && form[1] >= 0x80 {
        (2, usize::from(form[1]))
    } else if form[0] == 0x82 && form.len() > 2 && form[1] > 0 {
        (3, usize::from(form[1]) << 8 | usize::from(form[2]))
    } else {
        return Err(LENGTH_WRONG);
    };
    let header = tag + size;
    if value > input.len() - header {
        return Err(VALUE_PAST_THE_END);
    }
    let whole = header + value;
    Ok(Lengths { tag, header, whole })
}

/// As `object::pick` given to a lent buffer: the lists are judged first, then
/// the walk is made once to measure and once to write.
pub fn pick(tags: &[u8], objects: &[u8], out: &mut [u8]) -> Answer {
    let mut place = 0;
    while place < tags.len() {
        let tag = tag_length(&tags[place..]);
        if tag == 0 {
            return (TAG_WRONG, 0);
        }
        place += tag;
    }
    let mut place = 0;
    while place < objects.len() {
        match read(&objects[place..]) {
            Ok(lengths) => place += lengths.whole,
            Err(refusal) => return (refusal, 0),
        }
    }
    let mut length = 0;
    each_picked(tags, objects, |object| length += object.len());
    if length > out.len() {
        return (TOO_LITTLE_ROOM, 0);
    }
    let mut to = 0;
    each_picked(tags, objects, |object| {
        out[to..to + object.len()].copy_from_slice(object);
        to += object.len();
    });
    (0, length)
}

/// Hands out what is picked, in order. Both lists must have been judged.
fn each_picked(tags: &[u8], objects: &[u8], mut each: impl FnMut(&[u8])) {
    let mut at = 0;
    while at < tags.len() {
        let tag = &tags[at..at + tag_length(&tags[at..])];
        at += tag.len();
        if tag.len() == 1 && matches!(tag[0], 0x56 | 0x57 | 0x5A) {
            continue;
        }
        let mut place = 0;
        while let Ok(lengths) = read(&objects[place..]) {
            if objects[place..place + lengths.tag] == *tag {
                each(&objects[place..place + lengths.whole]);
                break;
            }
            place += lengths.whole;
        }
    }
}

/// The length of the tag at the start, 0 where none stands there.
fn tag_length(bytes: &[u8]) -> usize {
    if bytes.is_empty() || bytes[0] == 0x00 || bytes[0] == 0xFF {
        return 0;
    }
    if bytes[0] & 0x1F != 0x1F {
        return 1;
    }
    if bytes.len() > 1 && bytes[1] < 0x80 {
        return 2;
    }
    0
}
