//! The message calls. A response is told by any number but 0.

use super::assert_alike;
use crate::proved;
use second::message;
use second::script::shown;

/// Reads a message.
pub fn read(message: &[u8], response: u8, room: usize) {
    let is_response = response != 0;
    let line = || format!("M {room} {} {}", u8::from(is_response), shown(message));
    assert_alike(line, room, message::read(message, is_response), |out| {
        proved::message::read(message, response, out)
    });
}

/// Writes a message.
pub fn write(head: &[u8], response: u8, list: &[u8], room: usize) {
    let is_response = response != 0;
    let line = || {
        let (response, head) = (u8::from(is_response), shown(head));
        format!("L {room} {response} {head} {}", shown(list))
    };
    let outcome = message::write(head, is_response, list);
    assert_alike(line, room, outcome, |out| {
        proved::message::write(head, response, list, out)
    });
}

/// Finds a parameter. A script lends no room for that, so the room is told
/// beside the line.
pub fn find(list: &[u8], number: u16, n: usize, room: usize) {
    let line = || format!("F {number} {n} {}\nroom {room}", shown(list));
    assert_alike(line, room, message::find(list, number, n), |out| {
        proved::message::find(list, number, n, out)
    });
}
