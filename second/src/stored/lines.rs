//! Lines of the stored script that are no call. Both programs must tell them
//! from calls alike.

use super::Script;
use crate::script::{shown, LARGEST};

const BAD: [(&str, &str); 39] = [
    ("empty line", ""),
    ("no fields", "W"),
    ("no bytes", "W 16"),
    ("empty bytes", "W 16 "),
    ("two spaces", "W  16 4F"),
    ("space at the end", "W 16 4F "),
    ("a field too many", "W 16 4F 50"),
    ("unknown call", "X 16 4F"),
    ("lower-case call", "w 16 4F"),
    ("call of two letters", "WR 16 4F"),
    ("sign", "W +16 4F"),
    ("room over 8192", "W 8193 4F"),
    ("room of six digits", "W 000016 4F"),
    ("lower-case digit", "W 16 4f"),
    ("odd digits", "W 16 4F5"),
    ("no digit", "W 16 4G"),
    ("message without response", "M 16 4F504E"),
    ("response 2", "M 16 2 4F504E"),
    ("response 00", "M 16 00 4F504E"),
    ("response none", "M 16 - 4F504E"),
    ("message and more", "M 16 0 4F504E -"),
    ("room of a message over 8192", "M 8193 0 4F504E"),
    ("list missing", "L 16 0 4F504E"),
    ("list empty", "L 16 0 4F504E "),
    ("list and more", "L 16 0 4F504E - -"),
    ("response x", "L 16 x 4F504E -"),
    ("number over 65535", "F 65536 1 -"),
    ("number of six digits", "F 000001 1 -"),
    ("number signed", "F -1 1 -"),
    ("n of six digits", "F 1 100000 -"),
    ("n signed", "F 1 +1 -"),
    ("n missing", "F 1 -"),
    ("finding with a room", "F 1 1 - 16"),
    ("object without bytes", "O"),
    ("object with a room", "O 16 9F270140"),
    ("value missing", "T 16 9F27"),
    ("odd digits in a tag", "T 16 9F2 40"),
    ("objects missing", "P 16 9F27"),
    ("objects and more", "P 16 9F27 - -"),
];

pub fn bad(script: &mut Script) {
    for (name, line) in BAD {
        script.comment(&format!("bad line: {name}"));
        script.line(line);
    }
    let over = shown(&vec![0; LARGEST + 1]);
    for (name, line) in [
        ("payload", format!("W 0 {over}")),
        ("value", format!("T 0 95 {over}")),
    ] {
        script.comment(&format!("bad line: {name} over 8192"));
        script.line(&line);
    }
}
