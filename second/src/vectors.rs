//! The vectors files: blocks of `key: value` lines with blank lines between
//! them; a line that starts with `#` is a comment.

use crate::hex;
use crate::material::history::Event;
use crate::packet::SYN;
use std::path::Path;

/// Who sends what a device gets, and who answers.
pub const HOST: &str = "SPE";
pub const DEVICE: &str = "PP";

/// A pause that the driver tells the device of. Nobody sends anything then.
pub const TIMEOUT: &str = "timeout";

/// What the device sends before a response packet (the scope paper, section
/// Reception).
const ACK: u8 = 0x06;

/// The documents' examples and the worked loads, file by file.
pub struct Vectors {
    pub packets: Vec<Entry>,
    pub messages: Vec<Entry>,
    pub objects: Vec<Entry>,
    pub loads: Vec<Entry>,
}

/// One block of a file.
pub struct Entry {
    fields: Vec<(String, String)>,
}

impl Vectors {
    /// Reads the four files of the folder.
    pub fn read(folder: &Path) -> Result<Vectors, String> {
        let entries = |name| {
            let file = folder.join(name);
            let told = |why: String| format!("{}: {why}", file.display());
            let text = std::fs::read_to_string(&file).map_err(|e| told(e.to_string()))?;
            parse(&text).map_err(told)
        };
        Ok(Vectors {
            packets: entries("packets.txt")?,
            messages: entries("messages.txt")?,
            objects: entries("objects.txt")?,
            loads: entries("loads.txt")?,
        })
    }
}

/// Every block, in the file's order. Any line that is none of the above, a key
/// given twice or a block without `id` is an error, so that nothing is passed
/// over in silence.
pub fn parse(text: &str) -> Result<Vec<Entry>, String> {
    let mut entries = Vec::new();
    let mut fields = Vec::new();
    for (place, line) in text.lines().chain([""]).enumerate() {
        if line.starts_with('#') {
            continue;
        }
        if !line.is_empty() {
            let field = parse_field(line, &fields);
            fields.push(field.map_err(|why| format!("line {}: {why}", place + 1))?);
        } else if !fields.is_empty() {
            let entry = Entry {
                fields: std::mem::take(&mut fields),
            };
            entry.text("id")?;
            entries.push(entry);
        }
    }
    Ok(entries)
}

fn parse_field(line: &str, before: &[(String, String)]) -> Result<(String, String), String> {
    let (key, value) = line.split_once(": ").ok_or("not `key: value`")?;
    if before.iter().any(|(known, _)| known == key) {
        return Err(format!("{key} given twice"));
    }
    Ok((key.to_string(), value.to_string()))
}

impl Entry {
    pub fn field(&self, key: &str) -> Option<&str> {
        let (_, value) = self.fields.iter().find(|(known, _)| known == key)?;
        Some(value)
    }

    /// A field that the entry must have.
    pub fn text(&self, key: &str) -> Result<&str, String> {
        let id = || self.field("id").unwrap_or("an entry without id");
        self.field(key).ok_or_else(|| format!("{}: no {key}", id()))
    }

    /// The bytes of a field, None where the entry has no such field.
    pub fn bytes(&self, key: &str) -> Result<Option<Vec<u8>>, String> {
        let Some(text) = self.field(key) else {
            return Ok(None);
        };
        match hex::read_spaced(text) {
            Some(bytes) => Ok(Some(bytes)),
            None => Err(format!("{}: {key} is no bytes", self.text("id")?)),
        }
    }

    /// The bytes that an entry must have.
    pub fn hex(&self) -> Result<Vec<u8>, String> {
        let bytes = self.bytes("hex")?;
        bytes.ok_or(format!("{}: no hex", self.text("id")?))
    }

    /// The bytes of `hex` as the packet reader gets them. Where the entry shows
    /// a whole reply, its ACK is left off: the packet starts at SYN.
    pub fn packet(&self) -> Result<Vec<u8>, String> {
        let line = self.hex()?;
        Ok(match line.as_slice() {
            [ACK, SYN, ..] => line[1..].to_vec(),
            _ => line,
        })
    }

    /// Whether a message is a response: the pinpad sends those, and the host
    /// sends the commands.
    pub fn response(&self) -> Result<bool, String> {
        match self.text("dir")? {
            DEVICE => Ok(true),
            HOST => Ok(false),
            other => Err(format!("{}: dir {other}", self.text("id")?)),
        }
    }

    /// The steps of an exchange or a load: who sends, and what. A timeout is a step
    /// of no bytes.
    pub fn steps(&self) -> Result<Vec<(&str, Vec<u8>)>, String> {
        self.text("steps")?
            .split(" ; ")
            .map(|step| {
                if step == TIMEOUT {
                    return Ok((step, Vec::new()));
                }
                let (sender, bytes) = step.split_once(' ').ok_or("a step without bytes")?;
                let bytes = hex::read_spaced(bytes).ok_or("a step is no bytes")?;
                Ok((sender, bytes))
            })
            .collect()
    }

    /// What a device meets in the steps: all that the host sends, and the timeouts.
    pub fn history(&self) -> Result<Vec<Event>, String> {
        let steps = self.steps()?.into_iter();
        let events = steps.filter_map(|(sender, bytes)| match sender {
            HOST => Some(Event::Bytes(bytes)),
            TIMEOUT => Some(Event::Timeout),
            _ => None,
        });
        Ok(events.collect())
    }

    /// What the device replies in the steps, joined.
    pub fn replies(&self) -> Result<Vec<u8>, String> {
        let steps = self.steps()?.into_iter();
        let replies = steps.filter(|(sender, _)| *sender == DEVICE);
        Ok(replies.flat_map(|(_, bytes)| bytes).collect())
    }
}

#[cfg(test)]
mod tests {
    use super::parse;
    use crate::material::history::Event;

    const SMALL: &str = "# a comment\n\nid: A\nkind: packet\nhex: 06 16 4F\n\n\n\
        id: B\nkind: exchange\nsteps: SPE 16 17 ; PP 15\n";

    #[test]
    fn blocks_and_fields() {
        let entries = parse(SMALL).expect("the text is well formed");
        assert_eq!(entries.len(), 2);
        assert_eq!(entries[0].field("id"), Some("A"));
        assert_eq!(entries[0].field("desc"), None);
        assert_eq!(entries[0].bytes("hex"), Ok(Some(vec![0x06, 0x16, 0x4F])));
        assert_eq!(entries[0].packet(), Ok(vec![0x16, 0x4F]));
        let steps = vec![("SPE", vec![0x16, 0x17]), ("PP", vec![0x15])];
        assert_eq!(entries[1].steps(), Ok(steps));
        assert!(entries[1].hex().is_err());
    }

    #[test]
    fn a_history_and_its_replies() {
        let text = "id: A\nsteps: SPE 16 17 ; PP 15 ; SPE 16 ; timeout ; SPE 18 ; PP 04\n";
        let entries = parse(text).expect("the text is well formed");
        let history = vec![
            Event::Bytes(vec![0x16, 0x17]),
            Event::Bytes(vec![0x16]),
            Event::Timeout,
            Event::Bytes(vec![0x18]),
        ];
        assert_eq!(entries[0].history(), Ok(history));
        assert_eq!(entries[0].replies(), Ok(vec![0x15, 0x04]));
    }

    #[test]
    fn who_sends_a_message_tells_its_kind() {
        let text = "id: A\ndir: PP\n\nid: B\ndir: SPE\n\nid: C\ndir: -\n\nid: D\n";
        let entries = parse(text).expect("the text is well formed");
        assert_eq!(entries[0].response(), Ok(true));
        assert_eq!(entries[1].response(), Ok(false));
        assert!(entries[2].response().is_err());
        assert!(entries[3].response().is_err());
    }

    #[test]
    fn nothing_is_passed_over() {
        for text in [
            "id: A\nkind: packet\nstray\n",
            "id: A\nkind: packet\nkind: packet\n",
            "kind: packet\n",
        ] {
            assert!(parse(text).is_err(), "{text}");
        }
    }
}
