//! Data objects: tag, length, value.
//!
//! The scope paper, section Data objects. A length has one form only, the
//! shortest of three, so an object can be told from its tag and value and a
//! copied object is as one written anew.

use crate::answer::Outcome;
use crate::pieces;
use crate::tag::{self, TAG_WRONG};

// The scope paper, section Numbered refusals of calls.
pub const LENGTH_WRONG: u8 = 31;
pub const VALUE_PAST_THE_END: u8 = 32;
pub const VALUE_OVER: u8 = 33;

/// The longest value that the third form of the length can tell.
pub const LARGEST_VALUE: usize = 0xFFFF;

/// What picking never writes: track 1, track 2 and the card's number.
const WITHHELD: [&[u8]; 3] = [&[0x56], &[0x57], &[0x5A]];

/// How long the tag, the header (tag and length) and the whole object are.
#[derive(Clone, Copy, Debug, PartialEq)]
pub struct Lengths {
    pub tag: usize,
    pub header: usize,
    pub whole: usize,
}

#[derive(Debug, PartialEq)]
pub struct Object<'a> {
    pub tag: &'a [u8],
    pub value: &'a [u8],
    /// Tag, length and value as they stand in the list.
    pub whole: &'a [u8],
}

/// Reads the one object at the start; more may follow it.
pub fn read(input: &[u8]) -> Result<Lengths, u8> {
    let (object, _) = first(input)?;
    Ok(Lengths {
        tag: object.tag.len(),
        header: object.whole.len() - object.value.len(),
        whole: object.whole.len(),
    })
}

/// The object of a tag and a value.
pub fn write(tag: &[u8], value: &[u8]) -> Outcome {
    match tag::first(tag) {
        Ok((_, [])) => Ok([tag, &form_of(value.len())?, value].concat()),
        _ => Err(TAG_WRONG),
    }
}

/// Each tag's first object, whole and in the order of the tags. A tag that is
/// absent or withheld gives nothing, one asked twice gives its object twice.
pub fn pick(tags: &[u8], objects: &[u8]) -> Outcome {
    let tags = tag::list(tags)?;
    let objects = list(objects)?;
    let first_of = |tag: &&[u8]| objects.iter().find(|object| object.tag == *tag);
    let picked = tags.iter().filter(|tag| !WITHHELD.contains(tag));
    let picked: Vec<&[u8]> = picked.filter_map(first_of).map(|one| one.whole).collect();
    Ok(picked.concat())
}

/// The objects that these bytes are, nothing left over.
pub fn list(bytes: &[u8]) -> Result<Vec<Object<'_>>, u8> {
    pieces::all(bytes, first)
}

fn first(bytes: &[u8]) -> Result<(Object<'_>, &[u8]), u8> {
    let (tag, after_tag) = tag::first(bytes)?;
    let (length, after_header) = first_length(after_tag).ok_or(LENGTH_WRONG)?;
    let (value, rest) = after_header
        .split_at_checked(usize::from(length))
        .ok_or(VALUE_PAST_THE_END)?;
    let whole = &bytes[..bytes.len() - rest.len()];
    Ok((Object { tag, value, whole }, rest))
}

/// The length at the start, and what follows it. A length that a shorter form
/// could tell is none.
fn first_length(bytes: &[u8]) -> Option<(u16, &[u8])> {
    match bytes {
        [length @ 0x00..=0x7F, rest @ ..] => Some((u16::from(*length), rest)),
        [0x81, length @ 0x80..=0xFF, rest @ ..] => Some((u16::from(*length), rest)),
        [0x82, high @ 0x01..=0xFF, low, rest @ ..] => {
            Some((u16::from_be_bytes([*high, *low]), rest))
        }
        _ => None,
    }
}

/// The one form in which a length is written.
fn form_of(length: usize) -> Outcome {
    let [.., high, low] = length.to_be_bytes();
    match length {
        0x00..=0x7F => Ok(vec![low]),
        0x80..=0xFF => Ok(vec![0x81, low]),
        0x100..=LARGEST_VALUE => Ok(vec![0x82, high, low]),
        _ => Err(VALUE_OVER),
    }
}

#[cfg(test)]
mod tests {
    use super::{first_length, form_of, pick, read, write, Lengths};

    fn lengths(tag: usize, header: usize, whole: usize) -> Result<Lengths, u8> {
        Ok(Lengths { tag, header, whole })
    }

    fn padded(header: &[u8], value: usize) -> Vec<u8> {
        [header, &vec![0; value]].concat()
    }

    #[test]
    fn the_papers_samples() {
        assert_eq!(read(&[0x9F, 0x27, 0x01, 0x40]), lengths(2, 3, 4));
        assert_eq!(read(&padded(&[0x9F, 0x27, 0x81, 0x05], 5)), Err(31));
        assert_eq!(read(&padded(&[0x5A, 0x81, 0x05], 5)), Err(31));
        let long = padded(&[0x5A, 0x82, 0x01, 0x00], 256);
        assert_eq!(read(&long), lengths(1, 4, 260));
    }

    #[test]
    fn every_length_has_one_form() {
        for length in 0..=0xFFFF {
            let form = form_of(length).expect("a length of at most FFFFh");
            let size = form.len();
            assert_eq!(usize::from(first_length(&form).expect("a form").0), length);
            let wanted = match length {
                0..=127 => 1,
                128..=255 => 2,
                _ => 3,
            };
            assert_eq!(size, wanted, "{length}");
        }
        assert_eq!(form_of(0x10000), Err(33));
    }

    #[test]
    fn other_forms_are_refused() {
        for length in 0x00..=0x7F {
            assert_eq!(read(&padded(&[0x5A, 0x81, length], 127)), Err(31));
        }
        for length in 0x00..=0xFF {
            assert_eq!(read(&padded(&[0x5A, 0x82, 0x00, length], 255)), Err(31));
        }
        for form in (0x80..=0xFF).filter(|form| ![0x81, 0x82].contains(form)) {
            assert_eq!(read(&padded(&[0x5A, form, 0x01, 0x80], 512)), Err(31));
        }
    }

    #[test]
    fn the_lengths_next_to_a_change_of_form() {
        for (header, value) in [
            (&[0x5A, 0x00][..], 0),
            (&[0x5A, 0x7F], 127),
            (&[0x5A, 0x81, 0x80], 128),
            (&[0x5A, 0x81, 0xFF], 255),
            (&[0x5A, 0x82, 0x01, 0x00], 256),
            (&[0x5A, 0x82, 0xFF, 0xFF], 65_535),
        ] {
            let object = padded(header, value);
            assert_eq!(read(&object), lengths(1, header.len(), object.len()));
            assert_eq!(write(&[0x5A], &vec![0; value]), Ok(object.clone()));
            let short = read(&object[..object.len() - 1]);
            let refusal = if value == 0 { 31 } else { 32 };
            assert_eq!(short, Err(refusal), "{value} bytes, one missing");
        }
        assert_eq!(write(&[0x5A], &vec![0; 65_536]), Err(33));
    }

    #[test]
    fn an_object_that_breaks_off() {
        let object = padded(&[0x9F, 0x27, 0x82, 0x01, 0x00], 256);
        for length in 0..object.len() {
            let wanted = match length {
                0..=1 => 30,
                2..=4 => 31,
                _ => 32,
            };
            assert_eq!(read(&object[..length]), Err(wanted), "cut to {length}");
        }
    }

    #[test]
    fn what_follows_the_first_object_is_not_looked_at() {
        assert_eq!(read(&[0x5A, 0x01, 0x40, 0x00]), lengths(1, 2, 3));
        assert_eq!(read(&[0x5A, 0x00, 0xFF]), lengths(1, 2, 2));
    }

    #[test]
    fn the_order_of_refusals_of_one_object() {
        assert_eq!(read(&[0x00, 0x81, 0x05]), Err(30));
        assert_eq!(read(&[0x5A, 0x81, 0x05]), Err(31));
        assert_eq!(read(&[0x5A, 0x05]), Err(32));
        assert_eq!(write(&[], &vec![0; 65_536]), Err(30));
    }

    #[test]
    fn an_object_is_written_for_exactly_one_tag() {
        assert_eq!(write(&[0x9F, 0x27], &[0x40]), Ok(vec![0x9F, 0x27, 1, 0x40]));
        assert_eq!(write(&[0x5A], &[]), Ok(vec![0x5A, 0x00]));
        for tag in [
            &[][..],
            &[0x00],
            &[0xFF],
            &[0xFF, 0x27],
            &[0x9F],
            &[0x9F, 0x80],
            &[0x9F, 0x27, 0x95],
            &[0x5A, 0x56],
            &[0xDF, 0x81, 0x24],
        ] {
            assert_eq!(write(tag, &[]), Err(30), "{tag:02X?}");
        }
    }

    #[test]
    fn picking_follows_the_tags_and_takes_the_first() {
        let objects = [0x95, 1, 1, 0x9F, 0x27, 1, 2, 0x95, 1, 3, 0x82, 0];
        let cases: [(&[u8], &[u8]); 7] = [
            (&[0x95], &[0x95, 1, 1]),
            (&[0x82, 0x95], &[0x82, 0, 0x95, 1, 1]),
            (&[0x9F, 0x27, 0x82], &[0x9F, 0x27, 1, 2, 0x82, 0]),
            (&[0x95, 0x95], &[0x95, 1, 1, 0x95, 1, 1]),
            (&[0x84], &[]),
            (&[0x84, 0x82], &[0x82, 0]),
            (&[], &[]),
        ];
        for (tags, wanted) in cases {
            assert_eq!(pick(tags, &objects), Ok(wanted.to_vec()), "{tags:02X?}");
        }
        assert_eq!(pick(&[0x95, 0x9F, 0x27], &[]), Ok(vec![]));
    }

    #[test]
    fn some_objects_are_never_written() {
        let objects = [0x56, 1, 1, 0x57, 1, 2, 0x5A, 1, 3, 0x5F, 0x5A, 1, 4];
        let picked = pick(&[0x5A, 0x57, 0x56, 0x5F, 0x5A], &objects);
        assert_eq!(picked, Ok(vec![0x5F, 0x5A, 1, 4]));
    }

    /// Only objects of the list are withheld; what looks like one inside a value
    /// is part of that value.
    #[test]
    fn values_are_copied_as_they_stand() {
        let template = [0x70, 3, 0x5A, 1, 3];
        assert_eq!(pick(&[0x70], &template), Ok(template.to_vec()));
        assert_eq!(pick(&[0x5A], &template), Ok(vec![]));
    }

    #[test]
    fn the_first_bad_place_decides() {
        let good = [0x95, 0x00];
        for (tags, objects, refusal) in [
            (&[0x95, 0x00][..], &[0x95, 0x81][..], 30),
            (&[0x9F], &good, 30),
            (&[0x95], &[0x95, 0x00, 0x00], 30),
            (&[0x95], &[0x95, 0x00, 0x9F], 30),
            (&[0x95], &[0x95, 0x81, 0x05, 0x00], 31),
            (&[0x95], &[0x95, 0x00, 0x95], 31),
            (&[0x95], &[0x95, 0x02, 0x95], 32),
            (&[], &[0x95, 0x02, 0x95], 32),
            (&[0x56], &[0x00], 30),
        ] {
            assert_eq!(pick(tags, objects), Err(refusal), "{tags:?} {objects:?}");
        }
    }
}
