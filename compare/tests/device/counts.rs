//! How often things came up, so that random calls are seen to try things out.

use std::collections::BTreeMap;

#[derive(Default)]
pub struct Counts(BTreeMap<String, usize>);

impl Counts {
    pub fn see(&mut self, thing: &str) {
        match self.0.get_mut(thing) {
            Some(times) => *times += 1,
            None => drop(self.0.insert(thing.to_string(), 1)),
        }
    }

    /// How often each thing must have come up at least.
    pub fn assert_least(&self, name: &str, least: &[(&str, usize)]) {
        println!("{name}: {:?}", self.0);
        for (thing, least) in least {
            let times = self.0.get(*thing).copied().unwrap_or_default();
            assert!(times >= *least, "{name}, {thing}: {:?}", self.0);
        }
    }
}
