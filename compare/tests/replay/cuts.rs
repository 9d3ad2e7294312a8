//! The same history in several cuts: the replies, joined, and the state after them
//! are the same.

use super::assert_alike;
use compare::seed;
use second::material::history::{random_history, script_of, Cut, Event};
use second::material::traffic::Loads;
use second::random::Random;
use second::replay::{uncut, Calls};

/// So many histories of at most so many bytes.
const HISTORIES: [(usize, usize, Loads); 3] = [
    (40, 4_000, Loads::Short),
    (8, 20_000, Loads::Short),
    (2, 60_000, Loads::Any),
];

const CUTS: [Cut; 3] = [Cut::Into(1), Cut::Random, Cut::Into(Calls::LONGEST)];

fn assert_same_in_every_cut(random: &mut Random, name: &str, history: &[Event]) {
    let [first, others @ ..] = CUTS.map(|cut| {
        let script = script_of(random, history, cut);
        uncut(&assert_alike(&format!("{name}, {cut:?}"), &script))
    });
    for other in others {
        let differs = first.iter().zip(&other).find(|(a, b)| a != b);
        assert_eq!(differs, None, "{name}");
        assert_eq!(first.len(), other.len(), "{name}");
    }
}

#[test]
fn the_same_history_in_three_cuts() {
    let seed = seed::told("the_same_history_in_three_cuts");
    let mut random = Random::new(seed);
    for (count, length, loads) in HISTORIES {
        for number in 0..count {
            let history = random_history(&mut random, length, loads);
            let name = format!("{loads:?} {length}, history {number}, seed {seed}");
            assert_same_in_every_cut(&mut random, &name, &history);
        }
    }
}
