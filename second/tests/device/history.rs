//! Random traffic: the device against the model, to the last reply and the last
//! byte of its stores.

use super::model::Model;
use super::Line;
use second::device::OpenLoad;
use second::material::traffic::{random_traffic, recorded_packets, Loads};
use second::random::Random;
use second::table::store::{store_of, used_by};
use std::collections::BTreeMap;

/// Runs both; answers with what came up.
fn assert_alike(traffic: &[u8]) -> BTreeMap<&'static str, usize> {
    let model = Model::of(traffic);
    let mut line = Line::fresh();
    let replies = line.replies(traffic);
    for (place, (got, wanted)) in replies.iter().zip(&model.replies).enumerate() {
        assert_eq!(got, wanted, "reply {place}");
    }
    assert_eq!(replies.len(), model.replies.len());
    let tables = &line.device.tables;
    assert_eq!(tables.versions, model.versions);
    assert!(line.live == store_of(&model.set));
    assert_eq!(tables.live.used, used_by(&model.set));
    assert_eq!(tables.live.records, model.set.len());
    let load = model.load.map(|(load, version, answered)| {
        assert!(line.loading == store_of(&load.kept));
        let open = tables.load.as_ref().expect("an open load");
        assert_eq!(open.extent.used, used_by(&load.kept));
        let extent = open.extent;
        OpenLoad {
            network: load.network,
            version,
            answered,
            extent,
            over: load.over,
        }
    });
    assert_eq!(tables.load, load);
    if load.is_none() {
        assert!(line.loading == store_of(&[]));
    }
    model.seen
}

/// What must come up in traffic of that kind, and how often at least.
fn assert_seen(seen: &BTreeMap<&'static str, usize>, wanted: &[(&'static str, usize)]) {
    for (thing, least) in wanted {
        let times = seen.get(thing).copied().unwrap_or_default();
        assert!(times >= *least, "{thing}: {seen:?}");
    }
}

const WANTED: [(&str, usize); 18] = [
    ("512 live", 1),
    ("bad pair", 10),
    ("check differs", 10),
    ("closed for all", 10),
    ("closed for one", 10),
    ("closed without TLR", 5),
    ("empty", 5),
    ("fourth NAK", 10),
    ("live set changed", 20),
    ("load dropped", 10),
    ("load over by records", 1),
    ("NAK with nothing held", 10),
    ("over with the live set", 1),
    ("payload of 2048", 3),
    ("payload over", 3),
    ("record skipped", 20),
    ("resend", 20),
    ("started afresh", 10),
];

#[test]
fn random_traffic_with_loads_of_any_size() {
    let traffic = random_traffic(&mut Random::new(1), 6_000_000, Loads::Any);
    let seen = assert_alike(&traffic);
    assert_seen(&seen, &WANTED);
    let large = [("32768 bytes live", 3), ("load over by bytes", 10)];
    assert_seen(&seen, &large);
}

#[test]
fn random_traffic_with_short_loads() {
    let traffic = random_traffic(&mut Random::new(2), 600_000, Loads::Short);
    let seen = assert_alike(&traffic);
    assert_seen(&seen, &WANTED);
}

#[test]
fn small_pieces_of_random_traffic() {
    for seed in 0..300 {
        assert_alike(&random_traffic(&mut Random::new(seed), 2_000, Loads::Short));
    }
}

#[test]
fn recorded_traffic() {
    let seen = assert_alike(&recorded_packets(10).concat());
    assert_eq!(seen["closed for one"], 10);
}
