//! The object calls.

use super::assert_alike;
use crate::proved::{self, object::ObjectRead};
use second::object::{self, Lengths};
use second::script::shown;

/// Reads the object at the start.
pub fn read(input: &[u8]) {
    let (refusal, lengths) = match object::read(input) {
        Ok(Lengths { tag, header, whole }) => (0, [tag, header, whole]),
        Err(refusal) => (refusal, [0; 3]),
    };
    let [tag, header, whole] = lengths;
    let wanted = ObjectRead {
        refusal,
        tag,
        header,
        whole,
    };
    let got = proved::object::read(input);
    if got != wanted {
        panic!("O {}\nproved {got:?}\nsecond {wanted:?}", shown(input));
    }
}

/// Writes an object.
pub fn write(tag: &[u8], value: &[u8], room: usize) {
    let line = || format!("T {room} {} {}", shown(tag), shown(value));
    assert_alike(line, room, object::write(tag, value), |out| {
        proved::object::write(tag, value, out)
    });
}

/// Picks objects.
pub fn pick(tags: &[u8], objects: &[u8], room: usize) {
    let line = || format!("P {room} {} {}", shown(tags), shown(objects));
    assert_alike(line, room, object::pick(tags, objects), |out| {
        proved::object::pick(tags, objects, out)
    });
}
