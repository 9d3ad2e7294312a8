//! Makes the stored samples script: the documents' examples, the samples of the
//! scope paper, section Sample line traffic, and bad input of every kind. It
//! holds calls only; the answers are for the programs.

mod lines;
mod message;
mod object;
mod packet;

use crate::answer::Outcome;
use crate::vectors::Vectors;

/// The room lent to a call that will be refused: enough to see that the buffer
/// is left alone.
const ROOM_OF_REFUSED: usize = 16;

#[derive(Default)]
struct Script {
    text: String,
}

impl Script {
    fn comment(&mut self, text: &str) {
        self.line(&format!("# {text}"));
    }

    fn line(&mut self, line: &str) {
        self.text += line;
        self.text += "\n";
    }
}

/// The stored script over the vectors files.
pub fn script(vectors: &Vectors) -> Result<String, String> {
    let mut script = Script::default();
    packet::examples(&mut script, &vectors.packets)?;
    message::examples(&mut script, &vectors.messages)?;
    object::examples(&mut script, &vectors.objects)?;
    packet::samples(&mut script);
    message::samples(&mut script);
    object::samples(&mut script);
    lines::bad(&mut script);
    Ok(script.text)
}

/// Exactly the room that an outcome needs.
fn fitting(outcome: &Outcome) -> usize {
    outcome.as_ref().map_or(ROOM_OF_REFUSED, Vec::len)
}

/// Bytes that run through all values.
pub(crate) fn counting(length: usize) -> Vec<u8> {
    (0..length).map(|place| (place % 256) as u8).collect()
}
