//! The proved program `replay` against the second one: the same calls of a device,
//! and every byte of the log, the state that it ends with included.

mod cuts;
mod seen;
mod worked;

use compare::program::{proved_replay, Feed, Running};
use compare::seed;
use second::material::history::{broken, random_history, script_of, Cut};
use second::material::traffic::{random_traffic, Loads};
use second::random::Random;
use second::replay::{self, Calls};
use seen::Seen;

/// So many scripts of at most so many bytes of traffic.
const SCRIPTS: [(usize, usize, Loads); 3] = [
    (220, 4_000, Loads::Short),
    (70, 30_000, Loads::Short),
    (30, 150_000, Loads::Any),
];

/// The proved program reads 1,048,576 bytes of script at most; no script here comes
/// near that.
const LONGEST: usize = 900_000;

/// The second program's log, which must be the proved one's too.
fn assert_alike(name: &str, script: &[u8]) -> String {
    assert!(script.len() < LONGEST, "{name}: {} bytes", script.len());
    let wanted = replay::run(script);
    let got = Running::start(proved_replay(), Feed::Pipe).talk([script].into_iter());
    if got != wanted {
        panic!("{name}: {}", difference(&got, &wanted));
    }
    String::from_utf8(wanted).expect("the log is text")
}

/// The first line that differs, and the one before it. Lines may be as long as a
/// store, so only what is near the difference is shown.
fn difference(got: &[u8], wanted: &[u8]) -> String {
    let same = got.iter().zip(wanted).take_while(|(a, b)| a == b).count();
    let lines = wanted[..same].split(|&byte| byte == b'\n');
    let number = lines.clone().count();
    let start = same - lines.last().map_or(0, <[u8]>::len);
    let near = |log: &[u8]| {
        let line = log[start..].split(|&byte| byte == b'\n').next();
        let line = String::from_utf8_lossy(line.unwrap_or_default()).to_string();
        let from = (same - start).saturating_sub(40);
        let part: String = line.chars().skip(from).take(120).collect();
        format!("...{part}")
    };
    format!(
        "the logs differ in line {number}, byte {}\nproved {}\nsecond {}",
        same - start,
        near(got),
        near(wanted)
    )
}

/// The scope paper, section Sample line traffic, and what a fresh device is.
#[test]
fn opn() {
    let log = assert_alike("opn", b"B\x00\x07\x16OPN\x17\xA8\xA9");
    assert!(log.starts_with("B 0 7 06164F504E30303017775E\nreception idle 0 0\n"));
    assert_alike("nothing", b"");
}

#[test]
fn the_stored_script() {
    let script = concat!(env!("CARGO_MANIFEST_DIR"), "/../crates/replay/stdin");
    let script = std::fs::read(script).expect("the stored script can be read");
    assert_alike("stored", &script);
}

/// As long as two bytes can tell.
#[test]
fn the_longest_piece() {
    let seed = seed::told("the_longest_piece");
    let traffic = random_traffic(&mut Random::new(seed), Calls::LONGEST, Loads::Any);
    let mut calls = Calls::default();
    calls.piece(&traffic[..Calls::LONGEST]);
    let log = assert_alike(&format!("seed {seed}"), &calls.script);
    let offers = log.lines().filter(|line| line.starts_with("B 0 "));
    assert!(offers.count() > 10, "seed {seed}");
}

/// One script in eight breaks off.
#[test]
fn random_scripts() {
    let seed = seed::told("random_scripts");
    let mut random = Random::new(seed);
    let mut seen = Seen::default();
    for (count, length, loads) in SCRIPTS {
        for number in 0..count {
            let history = random_history(&mut random, length, loads);
            let mut script = script_of(&mut random, &history, Cut::Random);
            if number % 8 == 0 {
                script = broken(&mut random, script);
            }
            let name = format!("{loads:?} {length}, script {number}, seed {seed}");
            seen.see(&assert_alike(&name, &script));
            seen.bytes += script.len();
        }
    }
    seen.assert_enough(seed);
}
