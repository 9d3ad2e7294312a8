//! The object calls of the stored script.

use super::{counting, fitting, Script, ROOM_OF_REFUSED};
use crate::object;
use crate::script::shown;
use crate::tag;
use crate::vectors::Entry;

impl Script {
    fn read_object(&mut self, input: &[u8]) {
        self.line(&format!("O {}", shown(input)));
    }

    fn write_object(&mut self, room: usize, tag: &[u8], value: &[u8]) {
        self.line(&format!("T {room} {} {}", shown(tag), shown(value)));
    }

    fn pick(&mut self, room: usize, tags: &[u8], objects: &[u8]) {
        self.line(&format!("P {room} {} {}", shown(tags), shown(objects)));
    }

    /// A write with exactly the room that the object needs.
    fn write_object_fitting(&mut self, tag: &[u8], value: &[u8]) {
        self.write_object(fitting(&object::write(tag, value)), tag, value);
    }

    /// A pick with exactly the room that it needs.
    fn pick_fitting(&mut self, tags: &[u8], objects: &[u8]) {
        self.pick(fitting(&object::pick(tags, objects)), tags, objects);
    }
}

/// Every entry of the objects file. A list of objects is read from each of its
/// objects on and picked by its own tags; each tag list is picked from every
/// list of objects.
pub fn examples(script: &mut Script, entries: &[Entry]) -> Result<(), String> {
    let mut lists = Vec::new();
    for entry in entries {
        script.comment(entry.text("id")?);
        let bytes = entry.hex()?;
        match entry.text("kind")? {
            "objects" => {
                object_list(script, &bytes);
                lists.push(bytes);
            }
            "taglist" => tag_list(script, &bytes),
            "own" => object_list(script, &bytes),
            other => return Err(format!("{}: kind {other}", entry.text("id")?)),
        }
    }
    for entry in entries {
        if entry.text("kind")? == "taglist" {
            script.comment(&format!("{} picked from every list", entry.text("id")?));
            let tags = entry.hex()?;
            for objects in &lists {
                script.pick_fitting(&tags, objects);
            }
        }
    }
    Ok(())
}

fn object_list(script: &mut Script, bytes: &[u8]) {
    let mut rest = bytes;
    let mut tags = Vec::new();
    script.read_object(rest);
    for one in object::list(bytes).unwrap_or_default() {
        script.write_object_fitting(one.tag, one.value);
        tags.extend(one.tag);
        rest = &rest[one.whole.len()..];
        script.read_object(rest);
    }
    script.pick_fitting(&tags, bytes);
}

/// Each tag with a value, and all of them picked from those objects.
fn tag_list(script: &mut Script, bytes: &[u8]) {
    let mut objects = Vec::new();
    script.write_object_fitting(bytes, &[]);
    for tag in tag::list(bytes).unwrap_or_default() {
        objects.extend(object::write(tag, tag).unwrap_or_default());
    }
    script.pick_fitting(bytes, &objects);
}

/// The scope paper's samples, and input at and past every limit.
pub fn samples(script: &mut Script) {
    script.comment("sample 9F27");
    script.read_object(&[0x9F, 0x27, 0x01, 0x40]);
    tags(script);
    forms(script);
    values(script);
    cuts(script);
    picking(script);
    withheld(script);
    rooms(script);
    orders(script);
}

fn tags(script: &mut Script) {
    for tag in [
        &[][..],
        &[0x00],
        &[0xFF],
        &[0xFF, 0x01],
        &[0x9F],
        &[0x5F, 0x7F],
        &[0x5F, 0x80],
        &[0x5F, 0x00],
        &[0x1F, 0x27],
        &[0x1E],
        &[0x01],
        &[0xFE],
        &[0x5A, 0x56],
        &[0x9F, 0x27, 0x95],
        &[0xDF, 0x81, 0x24],
    ] {
        script.comment(&format!("tag {}", shown(tag)));
        script.read_object(tag);
        script.read_object(&[tag, &[0x01, 0x40]].concat());
        script.write_object_fitting(tag, &[0x40]);
        script.pick_fitting(tag, &[0x5A, 0x00, 0x95, 0x00]);
    }
}

/// Length forms, each before as many bytes as it could mean.
fn forms(script: &mut Script) {
    for (form, value) in [
        (&[0x00][..], 0),
        (&[0x7F], 127),
        (&[0x80], 128),
        (&[0x81], 0),
        (&[0x81, 0x05], 5),
        (&[0x81, 0x7F], 127),
        (&[0x81, 0x80], 128),
        (&[0x81, 0xFF], 255),
        (&[0x82], 0),
        (&[0x82, 0x01], 0),
        (&[0x82, 0x00, 0x05], 5),
        (&[0x82, 0x00, 0xFF], 255),
        (&[0x82, 0x01, 0x00], 256),
        (&[0x82, 0x01, 0xFF], 511),
        (&[0x83, 0x00, 0x01, 0x00], 256),
        (&[0x84], 4),
        (&[0xFF], 255),
    ] {
        script.comment(&format!("length {}", shown(form)));
        let object = [&[0x95], form, &counting(value)].concat();
        script.read_object(&object);
        if value > 0 {
            script.comment(&format!("length {}, value one short", shown(form)));
            script.read_object(&object[..object.len() - 1]);
        }
    }
}

fn values(script: &mut Script) {
    for length in [0, 1, 127, 128, 255, 256] {
        script.comment(&format!("value of {length}"));
        script.write_object_fitting(&[0x9F, 0x27], &counting(length));
    }
}

fn cuts(script: &mut Script) {
    let object = [0x9F, 0x27, 0x03, 0x01, 0x02, 0x03, 0x95];
    for length in 0..object.len() {
        script.comment(&format!("object cut to {length}"));
        script.read_object(&object[..length]);
        script.pick_fitting(&[0x95], &object[..length]);
    }
    script.comment("object with more behind it");
    script.read_object(&object);
}

/// The scope paper, section Data objects: first objects, in tag order, absent
/// tags skipped.
fn picking(script: &mut Script) {
    let list = [0x95, 1, 1, 0x9F, 0x27, 1, 2, 0x95, 1, 3, 0x82, 0];
    for (name, tags) in [
        ("all", &[0x95, 0x9F, 0x27, 0x82][..]),
        ("from the last", &[0x82, 0x9F, 0x27, 0x95]),
        ("one of two alike", &[0x95]),
        ("a tag asked twice", &[0x95, 0x82, 0x95]),
        ("absent", &[0x84]),
        ("absent among others", &[0x84, 0x82, 0x9F, 0x26, 0x95]),
        ("no tag", &[]),
    ] {
        script.comment(&format!("pick: {name}"));
        script.pick_fitting(tags, &list);
    }
    script.comment("pick: from nothing");
    script.pick_fitting(&[0x95], &[]);
    let long = [128, 256, 127].map(|length| {
        let tag = [0x9F, (length % 100) as u8];
        object::write(&tag, &counting(length)).unwrap_or_default()
    });
    script.comment("pick: long values");
    script.pick_fitting(&[0x9F, 27, 0x9F, 56, 0x9F, 28], &long.concat());
}

fn withheld(script: &mut Script) {
    let list = [0x56, 1, 1, 0x57, 1, 2, 0x5A, 1, 3, 0x5F, 0x5A, 1, 4];
    for (name, tags) in [
        ("56", &[0x56][..]),
        ("57", &[0x57]),
        ("5A", &[0x5A]),
        ("all three and another", &[0x5A, 0x57, 0x56, 0x5F, 0x5A]),
    ] {
        script.comment(&format!("withheld: {name}"));
        script.pick(ROOM_OF_REFUSED, tags, &list);
    }
    script.comment("withheld only where it is an object of the list");
    script.pick_fitting(&[0x70, 0x5A], &[0x70, 0x03, 0x5A, 0x01, 0x03]);
    script.comment("withheld, and still the list is judged");
    script.pick(ROOM_OF_REFUSED, &[0x5A], &[0x5A, 0x02, 0x01]);
}

fn rooms(script: &mut Script) {
    let (tag, value) = ([0x9F, 0x27], [0x40]);
    let objects = [0x95, 0x00, 0x9F, 0x27, 0x01, 0x40];
    for room in [4, 3, 0, 7] {
        script.comment(&format!("object of 4, room of {room}"));
        script.write_object(room, &tag, &value);
        script.pick(room, &tag, &objects);
    }
    script.comment("nothing picked, no room");
    script.pick(0, &[0x84, 0x5A], &objects);
    script.comment("object of 260, room one short");
    script.write_object(259, &[0x95], &counting(256));
}

/// Each refusal together with those that could be given for the same call, the
/// scope paper, section Numbered refusals of calls.
fn orders(script: &mut Script) {
    for (name, input) in [
        ("30 before 31", &[0x00, 0x81, 0x05][..]),
        ("30 before 31, second byte", &[0x9F, 0x80, 0x81, 0x05]),
        ("31 before 32", &[0x95, 0x81, 0x05]),
        ("31 before 32, third byte missing", &[0x95, 0x82, 0x01]),
    ] {
        script.comment(name);
        script.read_object(input);
    }
    script.comment("30 before 1, writer of objects");
    script.write_object(0, &[0x00], &[0x40]);
    for (name, tags, objects) in [
        ("30 before 31, tags", &[0x00][..], &[0x95, 0x81, 0x05][..]),
        ("30 before 32, last tag", &[0x95, 0x9F], &[0x95, 0x05]),
        (
            "31 before 32, first object",
            &[0x95],
            &[0x95, 0x80, 0x95, 0x05],
        ),
        ("31 before 30, first object", &[0x95], &[0x95, 0x80, 0x00]),
        ("32 before 30, first object", &[0x95], &[0x95, 0x05, 0x00]),
        ("30 before 1, pick", &[0x95], &[0x95, 0x00, 0x00]),
        ("31 before 1, pick", &[0x95], &[0x95, 0x00, 0x95]),
        ("32 before 1, pick", &[0x95], &[0x95, 0x00, 0x95, 0x01]),
    ] {
        script.comment(name);
        script.pick(0, tags, objects);
    }
}
