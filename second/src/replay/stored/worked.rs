//! The worked loads, packet by packet.

use super::Calls;
use crate::material::history::Event;
use crate::vectors::{Entry, Vectors};

const TORN: &str = "L-torn";

/// Each on a device with no record, no version and nothing held: a fresh one, and
/// what a load that brings nothing and a restart make of it.
pub fn cases(calls: &mut Calls, vectors: &Vectors) -> Result<(), String> {
    for load in &vectors.loads {
        hand_over(calls, load)?;
        calls.clear();
        calls.restart();
    }
    Ok(())
}

/// The one that is torn, on any device: it leaves its old record live and its second
/// load open.
pub fn torn(calls: &mut Calls, vectors: &Vectors) -> Result<(), String> {
    let named = |load: &&Entry| load.field("id") == Some(TORN);
    let load = vectors.loads.iter().find(named);
    hand_over(calls, load.ok_or(format!("no {TORN}"))?)
}

fn hand_over(calls: &mut Calls, load: &Entry) -> Result<(), String> {
    for event in load.history()? {
        match event {
            Event::Bytes(bytes) => calls.piece(&bytes),
            Event::Timeout => calls.timeout(),
            Event::Restart => calls.restart(),
        }
    }
    Ok(())
}

#[cfg(test)]
mod tests {
    use super::super::tests::{documents, responses};
    use super::cases;

    #[test]
    fn both_are_taken_from_the_start() {
        let whole = ["GTS000", "TLI020", "TLR000", "TLE000", "GTS000"];
        let torn = ["TLI020", "TLR000", "GTS000"];
        let clear = ["TLI020", "TLE000"];
        let all = responses(|calls| cases(calls, &documents()).expect("the vectors are whole"));
        assert_eq!(all, [&whole[..], &clear, &whole, &torn, &clear].concat());
    }
}
