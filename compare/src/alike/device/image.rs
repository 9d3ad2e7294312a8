//! What an image and a device of the second program are to each other.
//!
//! Each device has one image (docs/DECISIONS.md, What the papers leave open): what
//! is not there is 0 in it. An image that is no device's breaks refusal 3's rule by
//! that alone. All other rules are the second program's to judge, so a device may
//! well come of an image that it will refuse.

use crate::proved::device::Image;
use second::by_hand::table::Extent;
use second::device::{Device, Held, OpenLoad, Reception, State, Tables};
use second::table::version::FRESH;

/// What the fields of a load are while none is open.
const NO_LOAD: OpenLoad = OpenLoad {
    network: 0,
    version: [0; 10],
    answered: false,
    extent: Extent {
        used: 0,
        records: 0,
    },
    over: false,
};

/// What those of the held response are where there is none.
static NOTHING_HELD: Held = Held {
    payload: Vec::new(),
    resends: 0,
};

/// The image of a device. A payload that it holds must not be longer than any
/// response's.
pub fn image_of(device: &Device) -> Image {
    let Device {
        reception, tables, ..
    } = device;
    let (state, first) = code_of(reception.state);
    let held = device.held.as_ref().unwrap_or(&NOTHING_HELD);
    let load = tables.load.as_ref().unwrap_or(&NO_LOAD);
    let mut payload = [0; 19];
    payload[..held.payload.len()].copy_from_slice(&held.payload);
    let mut versions = [0; 1000];
    versions.copy_from_slice(tables.versions.as_flattened());
    Image {
        state,
        first,
        spoiled: u8::from(reception.spoiled),
        times: held.resends,
        opened: u8::from(tables.load.is_some()),
        network: load.network,
        over: u8::from(load.over),
        any: u8::from(load.answered),
        count: reception.count,
        length: held.payload.len(),
        live_used: tables.live.used,
        live_records: tables.live.records,
        load_used: load.extent.used,
        load_records: load.extent.records,
        payload,
        version: load.version,
        versions,
        store: reception.store,
    }
}

/// The device of an image, sound or not; None where no device has that image.
pub fn device_of(image: &Image) -> Option<Device> {
    let mut versions = FRESH;
    versions.as_flattened_mut().copy_from_slice(&image.versions);
    Some(Device {
        reception: Reception {
            state: state_of(image.state, image.first)?,
            count: image.count,
            spoiled: flag(image.spoiled)?,
            store: image.store,
        },
        tables: Tables {
            versions,
            live: Extent {
                used: image.live_used,
                records: image.live_records,
            },
            load: load_of(image)?,
        },
        held: held_of(image)?,
    })
}

fn code_of(state: State) -> (u8, u8) {
    match state {
        State::Idle => (0, 0),
        State::InData => (1, 0),
        State::InDataAfter13h => (2, 0),
        State::FirstCheckByte => (3, 0),
        State::SecondCheckByte(first) => (4, first),
    }
}

fn state_of(code: u8, first: u8) -> Option<State> {
    match (code, first) {
        (0, 0) => Some(State::Idle),
        (1, 0) => Some(State::InData),
        (2, 0) => Some(State::InDataAfter13h),
        (3, 0) => Some(State::FirstCheckByte),
        (4, first) => Some(State::SecondCheckByte(first)),
        _ => None,
    }
}

fn flag(byte: u8) -> Option<bool> {
    match byte {
        0 => Some(false),
        1 => Some(true),
        _ => None,
    }
}

fn load_of(image: &Image) -> Option<Option<OpenLoad>> {
    let load = OpenLoad {
        network: image.network,
        version: image.version,
        answered: flag(image.any)?,
        extent: Extent {
            used: image.load_used,
            records: image.load_records,
        },
        over: flag(image.over)?,
    };
    match flag(image.opened)? {
        true => Some(Some(load)),
        false => (load == NO_LOAD).then_some(None),
    }
}

fn held_of(image: &Image) -> Option<Option<Held>> {
    let (payload, rest) = image.payload.split_at_checked(image.length)?;
    if rest.iter().any(|&byte| byte != 0) {
        return None;
    }
    let held = Held {
        payload: payload.to_vec(),
        resends: image.times,
    };
    match held.payload.is_empty() {
        false => Some(Some(held)),
        true => (held == NOTHING_HELD).then_some(None),
    }
}
