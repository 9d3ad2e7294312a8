//! Writes scripts.

use crate::packet::framed;

/// A script as it grows.
#[derive(Clone, Debug, Default, PartialEq)]
pub struct Calls {
    pub script: Vec<u8>,
}

impl Calls {
    /// The longest piece that two bytes can tell.
    pub const LONGEST: usize = 65_535;

    /// A piece must not be longer than that.
    pub fn piece(&mut self, piece: &[u8]) {
        let length = u16::try_from(piece.len()).expect("a piece that can be told");
        self.script.push(b'B');
        self.script.extend(length.to_be_bytes());
        self.script.extend(piece);
    }

    /// The packet of a payload, as one piece.
    pub fn send(&mut self, payload: &[u8]) {
        self.piece(&framed(payload));
    }

    pub fn timeout(&mut self) {
        self.script.push(b'T');
    }

    pub fn restart(&mut self) {
        self.script.push(b'R');
    }
}
