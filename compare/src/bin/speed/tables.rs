//! The table calls: a device call checks both stores, TLR judges and adds a block,
//! TLE closes the load.

use crate::checks;
use crate::report::{Figures, Group, Row, BY_HAND};
use crate::stores::{records, Stores, FULL, LENGTH, LOADED, OTHER};
use compare::proved::table as proved;
use compare::timing;
use second::by_hand::table::{self as by_hand, Extent};
use second::material::table::full_blocks;
use std::hint::black_box;

const ROUNDS: usize = 301;
const CALLS_A_ROUND: u32 = 5;

/// A call on the stores.
type Call<'a> = &'a dyn Fn(&mut Stores) -> bool;

/// The checks are measured once, and shown in time and in bytes.
pub fn groups() -> Vec<Group> {
    let [full, long, few] = checks::measured();
    let mut rows = vec![full.times(), long.times()];
    rows.extend(adding());
    rows.extend(closing());
    let tables = Group {
        title: "Tables",
        second: BY_HAND,
        rows,
    };
    let rates = Group {
        title: "Tables, the checks in bytes",
        second: BY_HAND,
        rows: vec![full.rates(), few.rates()],
    };
    vec![tables, rates]
}

/// A whole load, in blocks that are as full as they can be.
fn adding() -> [Row; 2] {
    let blocks = full_blocks(&records(LOADED, LENGTH, FULL));
    let input = format!("{FULL} records, {} blocks", blocks.len());
    let start = Stores::of(&[], LENGTH, 0);
    let judge = |good: fn(&[u8]) -> bool| blocks.iter().all(|block| good(black_box(block)));
    let judged = medians(
        &start,
        [&|_| judge(|block| proved::block_good(block) == 1), &|_| {
            judge(by_hand::block_is_good)
        }],
        true,
    );
    let added = medians(
        &start,
        [
            &|stores| proved_add(stores, black_box(&blocks)),
            &|stores| by_hand_add(stores, black_box(&blocks)),
        ],
        true,
    );
    [("judge blocks", judged), ("add blocks", added)]
        .map(|(call, ns)| Row::times(call, &input, "call", ns))
}

/// Loads that are refused and done, and how the time grows. In the sets that are
/// mixed every other live record stays, and so has to move: twice the records,
/// and about twice the time if that goes with the bytes.
fn closing() -> Vec<Row> {
    let close = |start: &Stores, done| medians(start, [&proved_close, &by_hand_close], done);
    let own = |network| Stores::of(&[network; FULL], LENGTH, FULL);
    let mixed = |records: usize| {
        let networks = [OTHER, LOADED].repeat(records / 2);
        close(&Stores::of(&networks, LENGTH, records / 2), true)
    };
    let [half, full] = [FULL / 2, FULL].map(mixed);
    let mut rows: Vec<Row> = [
        (
            format!("{FULL} on {FULL} of another"),
            close(&own(OTHER), false),
        ),
        (
            format!("{FULL} on {FULL} of its own"),
            close(&own(LOADED), true),
        ),
        (format!("a set of {}, mixed", FULL / 2), half),
        (format!("a set of {FULL}, mixed"), full),
    ]
    .map(|(input, ns)| Row::times("close load", &input, "call", ns))
    .into();
    let growth = Figures::Growth([0, 1].map(|side| full[side] / half[side]));
    let input = format!("{FULL} : {}, mixed", FULL / 2);
    rows.push(Row::of("close load", &input, growth));
    rows
}

fn proved_add(stores: &mut Stores, blocks: &[Vec<u8>]) -> bool {
    let mut load = numbers(stores);
    for block in blocks {
        load = proved::add_block(&mut stores.loading, load, LOADED, block);
    }
    let proved::Load { used, records, .. } = load;
    stores.load = Extent { used, records };
    load.over == 0
}

/// Judges each block before it is added, as the proved call does: a bad one adds
/// nothing.
fn by_hand_add(stores: &mut Stores, blocks: &[Vec<u8>]) -> bool {
    let Stores {
        loading,
        load,
        over,
        ..
    } = stores;
    for block in blocks {
        if by_hand::block_is_good(block) {
            *over = by_hand::add_block(loading, load, *over, LOADED, block);
        }
    }
    !*over
}

fn proved_close(stores: &mut Stores) -> bool {
    let load = numbers(stores);
    let Extent { used, records } = stores.live_extent;
    let Stores { live, loading, .. } = stores;
    let closed = proved::close_load(live, loading, used, records, load, LOADED);
    stores.live_extent = Extent {
        used: closed.used,
        records: closed.records,
    };
    closed.done == 1
}

fn by_hand_close(stores: &mut Stores) -> bool {
    by_hand::close_load(
        &mut stores.live,
        &mut stores.loading,
        &mut stores.live_extent,
        stores.load,
        stores.over,
        LOADED,
    )
}

fn numbers(stores: &Stores) -> proved::Load {
    proved::Load {
        used: stores.load.used,
        records: stores.load.records,
        over: u8::from(stores.over),
    }
}

/// What the call takes on stores that are put back before each. Both sides must
/// answer as said and leave the same stores.
fn medians(start: &Stores, sides: [Call; 2], wanted: bool) -> [f64; 2] {
    let [proved, second] = sides.map(|side| {
        let mut stores = start.clone();
        assert_eq!(side(&mut stores), wanted, "the answer is another");
        stores
    });
    assert!(proved == second, "the stores differ");
    timing::medians(ROUNDS, |side| {
        timing::average_from(CALLS_A_ROUND, start, |stores| {
            black_box(sides[side](stores));
        })
    })
}
