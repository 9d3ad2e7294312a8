//! The samples script: calls as text, one a line, and the log of their answers.
//!
//! | line | call |
//! |---|---|
//! | `W ROOM PAYLOAD` | writes a packet |
//! | `R ROOM PACKET` | reads a packet |
//! | `M ROOM RESPONSE MESSAGE` | reads a message |
//! | `L ROOM RESPONSE HEAD LIST` | writes a message |
//! | `F NUMBER N LIST` | finds a parameter |
//! | `O INPUT` | reads an object |
//! | `T ROOM TAG VALUE` | writes an object |
//! | `P ROOM TAGS OBJECTS` | picks objects |
//!
//! ROOM is the length of the lent buffer, RESPONSE 1 for a response and 0 for a
//! command; all else but the decimals NUMBER and N is bytes. A line that starts
//! with `#` is a comment. The log shows the whole buffer after each call that
//! lends one, since the scope paper, section Numbered refusals of calls, also
//! settles the bytes that a call leaves alone.

use crate::answer::{give, Outcome};
use crate::object::Lengths;
use crate::{digits, hex, message, object, packet};

/// No buffer and no input is longer. The longest packet, all pairs, takes about
/// half of it, which leaves ample room for what must be refused.
pub const LARGEST: usize = 8192;

/// The largest number that five digits can tell.
const LARGEST_DECIMAL: usize = 99_999;

/// The log of a script. A last line need not be ended.
pub fn run(script: &[u8]) -> Vec<u8> {
    let mut log = Vec::new();
    for line in script.split_inclusive(|&byte| byte == b'\n') {
        let line = line.strip_suffix(b"\n").unwrap_or(line);
        match (line.first(), answer(line)) {
            (Some(b'#'), _) => log.extend(line),
            (_, Some(answer)) => log.extend(answer.bytes()),
            (_, None) => log.extend(b"bad line"),
        }
        log.push(b'\n');
    }
    log
}

/// A buffer as it is before each call. Its pattern repeats after 251 bytes, a
/// prime, so as not to fall in step with what a call might write by mistake.
pub fn fresh_buffer(room: usize) -> Vec<u8> {
    (0..room).map(|place| (place % 251) as u8).collect()
}

/// Bytes as the script and the log show them.
pub fn shown(bytes: &[u8]) -> String {
    match bytes {
        [] => "-".to_string(),
        _ => hex::written(bytes),
    }
}

/// Makes the call of a line; None where the line is none.
fn answer(line: &[u8]) -> Option<String> {
    let fields: Vec<&[u8]> = line.split(|&byte| byte == b' ').collect();
    match fields[..] {
        [b"W", room, payload] => lent(room, packet::write(&bytes(payload)?)),
        [b"R", room, packet] => lent(room, packet::read(&bytes(packet)?)),
        [b"M", room, response, message] => {
            lent(room, message::read(&bytes(message)?, flag(response)?))
        }
        [b"L", room, response, head, list] => {
            let (head, list) = (bytes(head)?, bytes(list)?);
            lent(room, message::write(&head, flag(response)?, &list))
        }
        [b"F", number, n, list] => {
            let number = u16::try_from(decimal(number, LARGEST_DECIMAL)?).ok()?;
            let n = decimal(n, LARGEST_DECIMAL)?;
            Some(found(message::find(&bytes(list)?, number, n)))
        }
        [b"O", input] => Some(measured(object::read(&bytes(input)?))),
        [b"T", room, tag, value] => lent(room, object::write(&bytes(tag)?, &bytes(value)?)),
        [b"P", room, tags, objects] => lent(room, object::pick(&bytes(tags)?, &bytes(objects)?)),
        _ => None,
    }
}

/// An outcome put into a buffer of that room.
fn lent(room: &[u8], outcome: Outcome) -> Option<String> {
    let mut buffer = fresh_buffer(decimal(room, LARGEST)?);
    let (refusal, length) = give(outcome, &mut buffer);
    Some(format!("{refusal} {length} {}", shown(&buffer)))
}

/// What was found lies in the caller's own bytes, so no room is asked for. A
/// refusal goes with an empty part.
fn found(outcome: Outcome) -> String {
    let refusal = outcome.as_ref().err().copied().unwrap_or(0);
    let data = outcome.unwrap_or_default();
    format!("{refusal} {} {}", data.len(), shown(&data))
}

fn measured(outcome: Result<Lengths, u8>) -> String {
    match outcome {
        Ok(Lengths { tag, header, whole }) => format!("0 {tag} {header} {whole}"),
        Err(refusal) => format!("{refusal} 0 0 0"),
    }
}

fn flag(digit: &[u8]) -> Option<bool> {
    match digit {
        b"0" => Some(false),
        b"1" => Some(true),
        _ => None,
    }
}

fn decimal(digits: &[u8], largest: usize) -> Option<usize> {
    if !(1..=5).contains(&digits.len()) {
        return None;
    }
    digits::number(digits).filter(|number| *number <= largest)
}

fn bytes(digits: &[u8]) -> Option<Vec<u8>> {
    match digits {
        b"" => None,
        b"-" => Some(Vec::new()),
        _ => hex::read(digits).filter(|bytes| bytes.len() <= LARGEST),
    }
}

#[cfg(test)]
mod tests {
    use super::run;

    fn log(script: &str) -> String {
        String::from_utf8(run(script.as_bytes())).expect("the log is text")
    }

    fn assert_bad(line: &str) {
        assert_eq!(log(&format!("{line}\n")), "bad line\n", "{line}");
    }

    #[test]
    fn packet_lines() {
        let script = "# OPN\nW 7 4F504E\nR 4 164F504E17A8A9\nR 2 164F504E17A8A9\nW 0 -\n";
        let expected = "# OPN\n0 7 164F504E17A8A9\n0 3 4F504E03\n1 0 0001\n10 0 -\n";
        assert_eq!(log(script), expected);
    }

    #[test]
    fn message_lines() {
        for (line, expected) in [
            ("M 7 0 434558303036000600023132", "0 6 00060002313206"),
            ("M 5 0 434558303036000600023132", "1 0 0001020304"),
            ("M 2 0 -", "20 0 0001"),
            ("M 2 1 4F504E303030", "0 0 0001"),
            ("M 2 0 4F504E303030", "20 0 0001"),
            ("L 4 0 4F504E -", "0 3 4F504E03"),
            ("L 10 1 4F504E303030 00010000", "1 0 00010203040506070809"),
            (
                "L 13 1 4F504E303030 00010000",
                "0 13 4F504E30303030303400010000",
            ),
            ("L 1 0 - -", "20 0 00"),
        ] {
            assert_eq!(log(line), format!("{expected}\n"), "{line}");
        }
    }

    #[test]
    fn finding_lines() {
        for (line, expected) in [
            ("F 6 1 00060002313200060000", "0 2 3132"),
            ("F 6 2 00060002313200060000", "0 0 -"),
            ("F 6 3 00060002313200060000", "24 0 -"),
            ("F 6 0 00060002313200060000", "24 0 -"),
            ("F 00006 00001 000600023132", "0 2 3132"),
            ("F 65535 1 FFFF000107", "0 1 07"),
            ("F 0 99999 -", "24 0 -"),
            ("F 6 1 0006000231", "21 0 -"),
        ] {
            assert_eq!(log(line), format!("{expected}\n"), "{line}");
        }
    }

    #[test]
    fn object_lines() {
        for (line, expected) in [
            ("O 9F270140", "0 2 3 4"),
            ("O 950095", "0 1 2 2"),
            ("O -", "30 0 0 0"),
            ("O 958105", "31 0 0 0"),
            ("O 9501", "32 0 0 0"),
            ("T 5 9F27 40", "0 4 9F27014004"),
            ("T 3 9F27 40", "1 0 000102"),
            ("T 0 - -", "30 0 -"),
            ("P 5 82 950182820155", "0 3 8201550304"),
            ("P 1 - -", "0 0 00"),
            ("P 0 95 95", "31 0 -"),
        ] {
            assert_eq!(log(line), format!("{expected}\n"), "{line}");
        }
    }

    #[test]
    fn the_buffer_pattern_starts_again_after_251() {
        let shown = log("R 252 -\n");
        assert!(shown.starts_with("12 0 000102"), "{shown}");
        assert!(shown.ends_with("F9FA00\n"), "{shown}");
    }

    #[test]
    fn the_last_line_need_not_be_ended() {
        assert_eq!(log(""), "");
        assert_eq!(log("W 1 -"), "10 0 00\n");
        assert_eq!(log("# end"), "# end\n");
    }

    #[test]
    fn other_lines_are_bad() {
        for line in [
            "",
            " ",
            "W",
            "W 1",
            "W 1 ",
            "W  1 00",
            "W 1 00 ",
            "W 1 00 00",
            " W 1 00",
            "w 1 00",
            "X 1 00",
            "WR 1 00",
            "W +1 00",
            "W -1 00",
            "W 8193 00",
            "W 000001 00",
            "W 1x 00",
            "W  00",
            "W 1 0",
            "W 1 0g",
            "W 1 ab",
            "W 1 --",
            "W 1 00\r",
            "W\t1\t00",
        ] {
            assert_bad(line);
        }
    }

    /// Every call with a field too many and one too few, and with each field
    /// something that it must not be.
    #[test]
    fn every_field_is_needed_and_judged() {
        for line in [
            "W 1 00",
            "R 1 00",
            "M 1 0 00",
            "L 1 0 00 00",
            "F 1 1 00",
            "O 00",
            "T 1 00 00",
            "P 1 00 00",
        ] {
            assert_ne!(log(line), "bad line\n", "{line}");
            assert_bad(&format!("{line} 00"));
            assert_bad(&format!("{line} "));
            let fields: Vec<&str> = line.split(' ').collect();
            for place in 0..fields.len() {
                for wrong in ["", "+", "0x", "a0"] {
                    let mut fields = fields.clone();
                    fields[place] = wrong;
                    assert_bad(&fields.join(" "));
                }
                let mut fields = fields.clone();
                fields.remove(place);
                assert_bad(&fields.join(" "));
            }
        }
    }

    #[test]
    fn flags_and_numbers_have_their_limits() {
        for line in [
            "M 1 2 00",
            "M 1 00 00",
            "M 1 - 00",
            "M 1 -0 00",
            "L 1 01 00 00",
            "L 1 x 00 00",
            "M 8193 0 00",
            "L 8193 0 00 00",
            "T 8193 00 00",
            "P 8193 00 00",
            "F 65536 1 00",
            "F 99999 1 00",
            "F 000001 1 00",
            "F -1 1 00",
            "F 1 100000 00",
            "F 1 -1 00",
        ] {
            assert_bad(line);
        }
    }

    #[test]
    fn the_largest_room_and_input() {
        assert!(log("W 08192 -\n").starts_with("10 0 0001"));
        let largest = "00".repeat(8192);
        assert_eq!(log(&format!("W 0 {largest}\n")), "11 0 -\n");
        assert_bad(&format!("W 0 {largest}00"));
        for (line, expected) in [
            (format!("M 0 0 {largest}"), "11 0 -\n"),
            (format!("L 0 0 {largest} {largest}"), "20 0 -\n"),
            (format!("F 0 2048 {largest}"), "0 0 -\n"),
            (format!("O {largest}"), "30 0 0 0\n"),
            (format!("T 0 {largest} {largest}"), "30 0 -\n"),
            (format!("P 0 {largest} {largest}"), "30 0 -\n"),
        ] {
            assert_eq!(log(&line), expected);
            assert_bad(&format!("{line}00"));
        }
    }
}
