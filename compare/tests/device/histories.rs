//! Random histories, handed to both programs in the same pieces.

use super::counts::Counts;
use super::{calls_of, SIZES};
use compare::alike::device::{device_of, image_of, Call, Devices};
use compare::proved::device::Image;
use compare::seed;
use second::device::{Done, ROOM};
use second::material::history::random_history;
use second::material::traffic::Loads;
use second::random::Random;

/// So many histories of at most so many bytes.
const HISTORIES: [(usize, usize, Loads); 3] = [
    (400, 3_000, Loads::Short),
    (60, 20_000, Loads::Short),
    (20, 100_000, Loads::Any),
];

/// What must come up after calls, and how often at least: about half of what the
/// poorest of sixteen seeds came to, or less.
const LEAST: [(&str, usize); 19] = [
    ("reply", 8_000),
    ("no reply", 35_000),
    ("timeout", 900),
    ("restart", 250),
    ("state 0", 18_000),
    ("state 1", 18_000),
    ("state 2", 500),
    ("state 3", 300),
    ("state 4", 250),
    ("spoiled", 100),
    ("held", 20_000),
    ("sent again", 1_800),
    ("three times", 600),
    ("load open", 14_000),
    ("any", 5_000),
    ("over", 12),
    ("records loaded", 4_500),
    ("records live", 7_000),
    ("piece left over", 2_000),
];

#[test]
fn random_histories() {
    let seed = seed::told("random_histories");
    let mut random = Random::new(seed);
    let mut counts = Counts::default();
    for (count, length, loads) in HISTORIES {
        for _ in 0..count {
            let history = random_history(&mut random, length, loads);
            let (mut devices, _) = Devices::start(SIZES);
            for call in calls_of(&mut random, &history) {
                let room = ROOM + random.pick(&[0, 0, 0, 1, 100]);
                made(&mut devices, call, room, &mut counts);
            }
        }
    }
    counts.assert_least(&format!("seed {seed}"), &LEAST);
}

/// Makes the call, of a piece as often as it takes. None may be refused.
fn made(devices: &mut Devices, call: Call, room: usize, counts: &mut Counts) {
    let all = match call {
        Call::Receive(piece) => devices.hand_over(piece, room),
        _ => vec![devices.call(call, room)],
    };
    for done in &all {
        assert_eq!(done.refusal, 0, "{call:?}");
        see(call, *done, counts);
    }
    if all.len() > 1 {
        counts.see("piece left over");
    }
    let image = devices.image();
    let again = device_of(image).map(|device| image_of(&device));
    assert!(
        again.as_ref() == Some(image),
        "no device's image: {image:?}"
    );
    see_image(image, counts);
}

fn see(call: Call, done: Done, counts: &mut Counts) {
    counts.see(match (call, done.written) {
        (Call::Timeout, _) => "timeout",
        (Call::Restart, _) => "restart",
        (Call::Receive(_), 0) => "no reply",
        (Call::Receive(_), _) => "reply",
    });
}

fn see_image(image: &Image, counts: &mut Counts) {
    counts.see(&format!("state {}", image.state));
    for (thing, is_there) in [
        ("spoiled", image.spoiled == 1),
        ("held", image.length > 0),
        ("sent again", image.times > 0),
        ("three times", image.times == 3),
        ("load open", image.opened == 1),
        ("any", image.any == 1),
        ("over", image.over == 1),
        ("records loaded", image.load_records > 0),
        ("records live", image.live_records > 0),
    ] {
        if is_there {
            counts.see(thing);
        }
    }
}
