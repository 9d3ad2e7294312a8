//! Random scripts: the same from the same seed, and the same history in every
//! cut.

use super::log;
use second::material::history::{broken, random_history, script_of, Cut, Event};
use second::material::traffic::Loads;
use second::random::Random;
use second::replay::{uncut, Calls};

const CUTS: [Cut; 4] = [
    Cut::Into(1),
    Cut::Into(4096),
    Cut::Into(Calls::LONGEST),
    Cut::Random,
];

#[test]
fn the_same_history_in_every_cut() {
    let mut random = Random::new(1);
    for round in 0..60 {
        let (length, loads) = match round % 20 {
            0 => (40_000, Loads::Any),
            _ => (4_000, Loads::Short),
        };
        let history = random_history(&mut random, length, loads);
        let scripts = CUTS.map(|cut| script_of(&mut random, &history, cut));
        let [first, others @ ..] = scripts.map(|script| uncut(&log(&script)));
        others.iter().for_each(|other| assert!(first == *other));
    }
}

#[test]
fn a_seed_gives_one_script() {
    let script = |seed| {
        let mut random = Random::new(seed);
        let history = random_history(&mut random, 10_000, Loads::Short);
        script_of(&mut random, &history, Cut::Random)
    };
    assert!(script(1) == script(1));
    assert!(script(1) != script(2));
}

/// No byte is lost or put in, whatever the cut.
#[test]
fn the_pieces_are_the_bytes() {
    let history = [
        Event::Bytes((0..=255).cycle().take(70_000).collect()),
        Event::Timeout,
        Event::Bytes(Vec::new()),
        Event::Restart,
    ];
    let Event::Bytes(bytes) = &history[0] else {
        panic!("bytes come first")
    };
    let mut random = Random::new(1);
    for cut in CUTS {
        let script = script_of(&mut random, &history, cut);
        let mut rest = &script[..];
        let mut got: Vec<u8> = Vec::new();
        while let [b'B', high, low, after @ ..] = rest {
            let length = usize::from(u16::from_be_bytes([*high, *low]));
            got.extend(&after[..length]);
            rest = &after[length..];
        }
        assert!(got == *bytes, "{cut:?}");
        assert_eq!(rest, b"TR", "{cut:?}");
    }
}

/// Single bytes, empty pieces, and pieces longer than a packet.
#[test]
fn random_cuts_have_pieces_of_every_sort() {
    let mut random = Random::new(1);
    let history = random_history(&mut random, 100_000, Loads::Short);
    let log = log(&script_of(&mut random, &history, Cut::Random));
    for line in ["B 0 0 -\n", "B 0 1 -\n", "B 0 2 -\n", "B 0 1 04\n"] {
        assert!(log.matches(line).count() > 3, "{line}");
    }
    let longest = log.lines().filter_map(|line| line.strip_prefix("B 0 "));
    let longest = longest.filter_map(|line| line.split(' ').next()?.parse().ok());
    let longest: Option<usize> = longest.max();
    assert!(longest.is_some_and(|length| length > 1000), "{longest:?}");
}

/// Of which the calls before are made, and no more.
#[test]
fn broken_scripts() {
    let mut random = Random::new(1);
    let (mut seen, whole) = (std::collections::BTreeSet::new(), b"B\0\x01\x18T");
    for _ in 0..200 {
        let script = broken(&mut random, whole.to_vec());
        let log = log(&script);
        assert!(log.starts_with("B 0 1 04\nT 0\nbad script\nreception idle 0 0\n"));
        seen.insert(script);
    }
    assert!(seen.len() > 20, "{}", seen.len());
}
