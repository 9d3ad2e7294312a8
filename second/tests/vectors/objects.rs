//! The objects file.

use super::{bytes, counts, text, vectors};
use second::object::Lengths;
use second::vectors::Entry;
use second::{by_hand, hex, object};
use std::collections::BTreeMap;

/// The tag list of a command and the objects of its answer, by their ids.
const ASKED_AND_ANSWERED: [(&str, &str); 6] = [
    ("O-000-3254", "O-000-3268"),
    ("O-000-3317b", "O-000-3324"),
    ("O-000-3448b", "O-000-3455"),
    ("O-000-3509", "O-000-3516"),
    ("O-000-3588", "O-000-3595"),
    ("O-000-3645b", "O-000-3652"),
];

fn of_kind(kind: &str) -> Vec<Entry> {
    let mut entries = vectors().objects;
    entries.retain(|entry| text(entry, "kind") == kind);
    entries
}

/// Entries of that kind which the scope paper's own rules read or refuse; the
/// other rules in the file are of change requests.
fn refused_or_not(kind: &str, refused: bool) -> Vec<Entry> {
    let mut entries = of_kind(kind);
    entries.retain(|entry| refusal(entry).is_some() == refused);
    entries
}

/// The number in a `parse_01` that starts with `refused`.
fn refusal(entry: &Entry) -> Option<u8> {
    let rest = text(entry, "parse_01").strip_prefix("refused ")?;
    let number = rest.split(' ').next()?;
    Some(number.parse().expect("the number of a refusal"))
}

/// The number in a `parse_01` such as `3 objects`.
fn count(entry: &Entry) -> usize {
    let number = text(entry, "parse_01").split(' ').next();
    let number = number.and_then(|number| number.parse().ok());
    number.unwrap_or_else(|| panic!("{}: no count", text(entry, "id")))
}

fn digits(text: &str) -> Vec<u8> {
    hex::read(text.as_bytes()).unwrap_or_else(|| panic!("{text} is no bytes"))
}

fn hex_of(entry: &Entry) -> Vec<u8> {
    bytes(entry, "hex").expect("the bytes of an entry")
}

/// Tag, length and value of each object in the field `list`.
fn objects_of(entry: &Entry) -> Vec<[Vec<u8>; 3]> {
    let object = |text: &str| {
        let mut fields = text.split(' ').map(digits);
        std::array::from_fn(|_| fields.next().expect("tag, length and value"))
    };
    text(entry, "list").split(" | ").map(object).collect()
}

/// The hand-written reader too.
fn read(input: &[u8]) -> Result<Lengths, u8> {
    let lengths = object::read(input);
    assert_eq!(by_hand::object::read(input), lengths);
    lengths
}

/// Both ways of picking, one through a buffer with some room to spare.
fn pick(tags: &[u8], objects: &[u8]) -> Result<Vec<u8>, u8> {
    let picked = object::pick(tags, objects);
    let mut out = [0xEE; 1024];
    let (refusal, length) = by_hand::object::pick(tags, objects, &mut out);
    let by_hand = match refusal {
        0 => Ok(out[..length].to_vec()),
        _ => Err(refusal),
    };
    assert_eq!(by_hand, picked);
    assert!(out[length..].iter().all(|byte| *byte == 0xEE));
    picked
}

#[test]
fn no_entry_is_missed() {
    let entries = vectors().objects;
    let kinds = counts(entries.iter().map(|entry| text(entry, "kind")));
    assert_eq!(kinds, [("objects", 12), ("taglist", 23), ("own", 4)].into());
    let statuses = counts(entries.iter().map(|entry| text(entry, "status")));
    assert_eq!(statuses, [("OK", 38), ("DAMAGED as printed", 1)].into());
    for entry in &entries {
        let id = text(entry, "id");
        assert_eq!(
            text(entry, "bytes"),
            hex_of(entry).len().to_string(),
            "{id}"
        );
    }
}

/// What is damaged in print stands in the file repaired, from the same example
/// in the other document.
#[test]
fn the_damaged_entry_is_the_one_it_was_repaired_from() {
    let entries = vectors().objects;
    let by_id = |id: &str| {
        let entry = entries.iter().find(|entry| text(entry, "id") == id);
        hex_of(entry.expect("the entry is there"))
    };
    let damaged = entries.iter().filter(|entry| text(entry, "status") != "OK");
    let damaged: Vec<&str> = damaged.map(|entry| text(entry, "id")).collect();
    assert_eq!(damaged, ["O-001-3340"]);
    assert_eq!(by_id("O-001-3340"), by_id("O-000-3324"));
}

/// Object after object, to the end of the list, and each written from its tag
/// and value.
#[test]
fn every_object_reads_and_is_written_as_its_entry_says() {
    let mut objects = 0;
    for entry in of_kind("objects") {
        let id = text(&entry, "id");
        let input = hex_of(&entry);
        let mut rest = &input[..];
        for [tag, length, value] in objects_of(&entry) {
            let header = tag.len() + length.len();
            let wanted = Lengths {
                tag: tag.len(),
                header,
                whole: header + value.len(),
            };
            assert_eq!(read(rest), Ok(wanted), "{id}");
            let whole = [&tag[..], &length, &value].concat();
            assert_eq!(object::write(&tag, &value), Ok(whole.clone()), "{id}");
            rest = rest.strip_prefix(&whole[..]).expect("the object as listed");
            objects += 1;
        }
        assert!(rest.is_empty(), "{id}: more than the objects listed");
        assert_eq!(objects_of(&entry).len(), count(&entry), "{id}");
    }
    assert_eq!(objects, 44);
}

/// By its own tags a list comes out as it is, by the same backwards in turned
/// order. No list of objects in the file has one that is withheld, nor two of a
/// tag.
#[test]
fn every_list_is_picked_by_its_own_tags() {
    let mut picked = 0;
    for entry in of_kind("objects") {
        let id = text(&entry, "id");
        let input = hex_of(&entry);
        let mut objects = objects_of(&entry);
        let tags: Vec<u8> = objects.iter().flat_map(|[tag, ..]| tag.clone()).collect();
        assert_eq!(pick(&tags, &input), Ok(input.clone()), "{id}");
        objects.reverse();
        let tags: Vec<u8> = objects.iter().flat_map(|[tag, ..]| tag.clone()).collect();
        let turned = objects.iter().flat_map(|object| object.concat()).collect();
        assert_eq!(pick(&tags, &input), Ok(turned), "{id}");
        picked += 1;
    }
    assert_eq!(picked, 12);
}

/// The tags in a field that lists some, none where the entry has no such field.
fn tags_in(entry: &Entry, key: &str) -> Vec<Vec<u8>> {
    let field = entry.field(key).unwrap_or("");
    field.split_whitespace().map(digits).collect()
}

/// One object for each tag, its value the tag once more.
fn objects_for(tags: &[Vec<u8>]) -> Vec<u8> {
    let object = |tag| object::write(tag, tag).expect("the tag is good");
    tags.iter().map(Vec::as_slice).flat_map(object).collect()
}

/// The tag list is the tags listed. Picked from one object for each of them it
/// gives all but those that the entry says are never written; those protected in
/// document 000 only are written.
#[test]
fn every_tag_list_picks_what_may_be_written() {
    let entries = refused_or_not("taglist", false);
    let mut sums = [0; 3];
    for entry in &entries {
        let id = text(entry, "id");
        let tags = tags_in(entry, "list");
        assert_eq!(tags.concat(), hex_of(entry), "{id}");
        assert_eq!(tags.len(), count(entry), "{id}");
        let withheld = tags_in(entry, "never_written_01");
        let protected = tags_in(entry, "protected_in_000_only");
        let mut written = tags.clone();
        written.retain(|tag| !withheld.contains(tag));
        assert_eq!(written.len() + withheld.len(), tags.len(), "{id}");
        assert!(protected.iter().all(|tag| written.contains(tag)), "{id}");
        let picked = pick(&hex_of(entry), &objects_for(&tags));
        assert_eq!(picked, Ok(objects_for(&written)), "{id}");
        sums[0] += tags.len();
        sums[1] += withheld.len();
        sums[2] += protected.len();
    }
    assert_eq!((entries.len(), sums), (8, [116, 6, 4]));
}

/// Tags of three bytes are for a change request. The scope paper refuses their
/// second byte, in a list, at the start of an object and as a tag to write.
#[test]
fn every_refused_tag_is_refused_everywhere() {
    let entries = refused_or_not("taglist", true);
    for entry in &entries {
        let id = text(entry, "id");
        let tag = hex_of(entry);
        let refusal = refusal(entry).expect("a refusal");
        assert_eq!(refusal, 30, "{id}");
        assert_eq!(pick(&tag, &[]), Err(refusal), "{id}");
        assert_eq!(pick(&[], &tag), Err(refusal), "{id}");
        assert_eq!(read(&tag), Err(refusal), "{id}");
        assert_eq!(object::write(&tag, &[]), Err(refusal), "{id}");
    }
    assert_eq!(entries.len(), 15);
}

/// The scope paper's own samples, and their neighbours.
#[test]
fn every_sample_of_the_paper_reads_or_is_refused() {
    let mut answers = BTreeMap::new();
    for entry in of_kind("own") {
        let input = hex_of(&entry);
        let wanted = match refusal(&entry) {
            Some(refusal) => Err(refusal),
            None => Ok(input.len()),
        };
        let whole = read(&input).map(|lengths| lengths.whole);
        assert_eq!(whole, wanted, "{}", text(&entry, "id"));
        *answers.entry(wanted.err()).or_insert(0) += 1;
    }
    assert_eq!(answers, [(None, 2), (Some(31), 2)].into());
}

#[test]
fn every_answer_is_what_the_command_asked_for() {
    let entries = vectors().objects;
    let by_id = |id: &str| {
        let entry = entries.iter().find(|entry| text(entry, "id") == id);
        hex_of(entry.unwrap_or_else(|| panic!("{id} is not there")))
    };
    for (asked, answered) in ASKED_AND_ANSWERED {
        let objects = by_id(answered);
        let picked = pick(&by_id(asked), &objects);
        assert_eq!(picked, Ok(objects), "{asked} from {answered}");
    }
}

/// The field `walk` also names the objects inside others. Each of them, wherever
/// it starts, reads with the tag and the length named.
#[test]
fn every_object_inside_another_reads() {
    let mut walked = BTreeMap::new();
    for entry in vectors().objects {
        let Some(walk) = entry.field("walk") else {
            continue;
        };
        let input = hex_of(&entry);
        for step in walk.split(" ; ") {
            let words: Vec<&str> = step.split(' ').collect();
            let ["depth", depth, "start", start, "len", whole, "tag", tag] = words[..] else {
                panic!("{}: {step}", text(&entry, "id"));
            };
            let rest = &input[start.parse().expect("a place")..];
            let lengths = read(rest).expect("an object");
            assert_eq!(lengths.whole.to_string(), whole, "{step}");
            assert_eq!(rest[..lengths.tag], digits(tag), "{step}");
            *walked.entry(depth.to_string()).or_insert(0) += 1;
        }
    }
    let depths = [("1", 3), ("2", 4), ("3", 5)];
    let depths = depths.map(|(depth, count)| (depth.to_string(), count));
    assert_eq!(walked, depths.into());
}
