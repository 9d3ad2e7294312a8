//! Calls with something changed in what they are lent: refused alike, or gone on
//! with alike.

use super::breaks::{random_break, BYTES};
use super::counts::Counts;
use super::{calls_of, SIZES};
use compare::alike::device::{Call, Devices, Kept};
use compare::proved::device::Image;
use compare::seed;
use second::device::ROOM;
use second::material::command::random_command;
use second::material::history::random_history;
use second::material::table::random_network;
use second::material::traffic::Loads;
use second::packet::framed;
use second::random::Random;

/// So many histories of at most so many bytes.
const HISTORIES: [(usize, usize, Loads); 3] = [
    (200, 3_000, Loads::Short),
    (40, 20_000, Loads::Short),
    (12, 60_000, Loads::Any),
];

/// In how many states of a history, and how often in each.
const STATES: usize = 8;
const BREAKS: usize = 20;

/// How many calls of the history come after one that was not refused.
const MORE: usize = 3;

/// How often each refusal must come at least, by the call and by what was changed:
/// about half of what the poorest of sixteen seeds came to, or less.
const LEAST: [(&str, usize); 55] = [
    ("receive 0", 1_000),
    ("receive 1", 250),
    ("receive 2", 250),
    ("receive 3", 6_000),
    ("timeout 0", 600),
    ("timeout 1", 100),
    ("timeout 2", 100),
    ("timeout 3", 3_000),
    ("restart 0", 600),
    ("restart 1", 100),
    ("restart 2", 100),
    ("restart 3", 3_000),
    ("any 0", 50),
    ("any 3", 500),
    ("count 0", 250),
    ("count 3", 300),
    ("first 0", 3),
    ("first 3", 500),
    ("held 0", 150),
    ("held 3", 250),
    ("length 3", 600),
    ("live byte 0", 70),
    ("live byte 3", 1_000),
    ("live records 3", 600),
    ("live used 3", 500),
    ("load 0", 300),
    ("load 3", 100),
    ("load records 3", 600),
    ("load used 3", 600),
    ("loading byte 0", 60),
    ("loading byte 3", 1_000),
    ("network 0", 100),
    ("network 3", 400),
    ("opened 3", 500),
    ("over 0", 30),
    ("over 3", 500),
    ("payload 0", 4),
    ("payload 3", 400),
    ("room 1", 400),
    ("spoiled 0", 100),
    ("spoiled 3", 400),
    ("state 0", 250),
    ("state 3", 250),
    ("store 0", 400),
    ("store length 2", 400),
    ("times 0", 150),
    ("times 3", 300),
    ("two 0", 80),
    ("two 1", 100),
    ("two 2", 100),
    ("two 3", 1_500),
    ("version 0", 90),
    ("version 3", 300),
    ("versions 0", 200),
    ("versions 3", 200),
];

#[test]
fn random_breaks() {
    let seed = seed::told("random_breaks");
    let mut random = Random::new(seed);
    let mut counts = Counts::default();
    for (count, length, loads) in HISTORIES {
        for _ in 0..count {
            let history = random_history(&mut random, length, loads);
            let calls = calls_of(&mut random, &history);
            each_state(&mut random, &calls, |random, kept, after| {
                (0..BREAKS).for_each(|_| broken(random, kept, after, &mut counts));
            });
        }
    }
    counts.assert_least(&format!("seed {seed}"), &LEAST);
}

/// Hands out some states that these calls come through, the last one among them,
/// and the calls that come after each.
fn each_state<'a>(
    random: &mut Random,
    calls: &'a [Call<'a>],
    mut each: impl FnMut(&mut Random, &Kept<Image>, &'a [Call<'a>]),
) {
    let (mut devices, _) = Devices::start(SIZES);
    let mut places: Vec<usize> = (1..STATES).map(|_| random.below(calls.len())).collect();
    places.push(calls.len() - 1);
    for (place, call) in calls.iter().enumerate() {
        go_on(&mut devices, *call);
        if places.contains(&place) {
            each(random, &devices.kept(), &calls[place + 1..]);
        }
    }
}

/// Makes a call that may not be refused.
fn go_on(devices: &mut Devices, call: Call) {
    let refusal = match call {
        Call::Receive(piece) => devices
            .hand_over(piece, ROOM)
            .last()
            .map(|done| done.refusal),
        _ => Some(devices.call(call, ROOM).refusal),
    };
    assert_eq!(refusal, Some(0), "{call:?}");
}

/// Changes the state in one place, one time in eight in two, and makes a call.
fn broken(random: &mut Random, kept: &Kept<Image>, after: &[Call], counts: &mut Counts) {
    let mut kept = kept.clone();
    let mut room = ROOM + random.pick(&[0, 0, 1, 100]);
    let mut name = random_break(random, &mut kept, &mut room);
    if random.below(8) == 0 {
        random_break(random, &mut kept, &mut room);
        name = "two";
    }
    let network = random_network(random);
    let packet = framed(&random_command(random, network));
    let (called, call) = match (random.below(4), after.first()) {
        (0, _) => ("timeout", Call::Timeout),
        (1, _) => ("restart", Call::Restart),
        (2, Some(Call::Receive(piece))) => ("receive", Call::Receive(piece)),
        _ => ("receive", Call::Receive(&packet)),
    };
    let mut devices = Devices::of(&kept);
    let refusal = devices.call(call, room).refusal;
    counts.see(&format!("{called} {refusal}"));
    counts.see(&format!("{name} {refusal}"));
    if refusal == 0 {
        after
            .iter()
            .take(MORE)
            .for_each(|call| go_on(&mut devices, *call));
        go_on(&mut devices, Call::Receive(&packet));
    }
}

/// In the last state of some histories.
#[test]
fn every_value_of_every_byte_field() {
    let seed = seed::told("every_value_of_every_byte_field");
    let mut random = Random::new(seed);
    for _ in 0..6 {
        let history = random_history(&mut random, 3_000, Loads::Short);
        let calls = calls_of(&mut random, &history);
        let (mut devices, _) = Devices::start(SIZES);
        calls.iter().for_each(|call| go_on(&mut devices, *call));
        for (_, field, _) in BYTES {
            let mut kept = devices.kept();
            for value in 0..=255 {
                *field(&mut kept.device) = value;
                Devices::of(&kept).call(Call::Timeout, ROOM);
            }
        }
    }
}
