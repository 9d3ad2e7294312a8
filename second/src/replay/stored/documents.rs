//! The documents' own examples, as a device gets them.

use super::Calls;
use crate::vectors::{Entry, Vectors, HOST};

/// The documents' table load: opened, the records of both parts, closed.
const LOAD: [&str; 4] = ["V-000-2780", "V-000-2814", "V-000-2828", "V-000-2910"];

/// Everything that the host sends, each followed by silence, as the documents' test
/// list has it: one of them is half a packet. Then their load, packet after packet.
pub fn cases(calls: &mut Calls, vectors: &Vectors) -> Result<(), String> {
    calls.clear();
    for entry in &vectors.packets {
        for bytes in from_host(entry)? {
            calls.piece(&bytes);
        }
        calls.timeout();
    }
    for id in LOAD {
        let named = |entry: &&Entry| entry.field("id") == Some(id);
        let entry = vectors.packets.iter().find(named);
        calls.piece(&entry.ok_or(format!("no {id}"))?.hex()?);
    }
    Ok(())
}

fn from_host(entry: &Entry) -> Result<Vec<Vec<u8>>, String> {
    if entry.field("dir") == Some(HOST) {
        return Ok(vec![entry.hex()?]);
    }
    if entry.field("steps").is_none() {
        return Ok(Vec::new());
    }
    let steps = entry.steps()?.into_iter();
    let hosts = steps.filter(|(sender, _)| *sender == HOST);
    Ok(hosts.map(|(_, bytes)| bytes).collect())
}

#[cfg(test)]
mod tests {
    use super::super::tests::{documents, responses};
    use super::{cases, LOAD};

    /// What each packet of the documents' load is answered.
    #[test]
    fn their_load_is_taken() {
        let all = responses(|calls| cases(calls, &documents()).expect("the vectors are whole"));
        let last = &all[all.len() - LOAD.len()..];
        assert_eq!(last, ["TLI020", "TLR000", "TLR000", "TLE000"]);
    }
}
