//! The end of a log: the whole state, a line for each part of it.
//!
//! | line | what it shows |
//! |---|---|
//! | `reception NAME SPOILED COUNT` | the packet at hand |
//! | `held PACKET TIMES` | the response, and how often it was sent again |
//! | `load closed` | that no load is open, or else: |
//! | `load open NETWORK VERSION USED RECORDS OVER ANY` | the open load |
//! | `live USED RECORDS` | how far the live store is used |
//! | `live-bytes BYTES` | the used part of it |
//! | `loading-bytes BYTES` | that of the loading store |
//! | `version NETWORK VERSION` | a line for each network, 00 to 99 |
//! | `store BYTES` | the whole reception store |
//!
//! NAME is one of the five reception states, `second-XX` where it holds check byte
//! XX. ANY tells whether a TLR has been answered 000 in the load.

use crate::device::{Device, OpenLoad, State};
use crate::hex;
use crate::line::Line;
use crate::packet::framed;
use crate::script::shown;

pub fn shown_of(line: &Line) -> String {
    let Line {
        device,
        live,
        loading,
    } = line;
    let tables = &device.tables;
    let extent = tables.live;
    let loaded = tables.load.as_ref().map_or(0, |load| load.extent.used);
    [
        reception(device),
        held(device),
        load(tables.load.as_ref()),
        format!("live {} {}\n", extent.used, extent.records),
        format!("live-bytes {}\n", shown(&live[..extent.used])),
        format!("loading-bytes {}\n", shown(&loading[..loaded])),
        versions(device),
        format!("store {}\n", hex::written(&device.reception.store)),
    ]
    .concat()
}

fn reception(device: &Device) -> String {
    let reception = &device.reception;
    let name = match reception.state {
        State::Idle => "idle".to_string(),
        State::InData => "data".to_string(),
        State::InDataAfter13h => "escape".to_string(),
        State::FirstCheckByte => "first".to_string(),
        State::SecondCheckByte(first) => format!("second-{first:02X}"),
    };
    let spoiled = u8::from(reception.spoiled);
    format!("reception {name} {spoiled} {}\n", reception.count)
}

/// As its packet, which is what goes over the line.
fn held(device: &Device) -> String {
    match &device.held {
        Some(held) => {
            let packet = hex::written(&framed(&held.payload));
            format!("held {packet} {}\n", held.resends)
        }
        None => "held - 0\n".to_string(),
    }
}

fn load(load: Option<&OpenLoad>) -> String {
    let Some(load) = load else {
        return "load closed\n".to_string();
    };
    let OpenLoad {
        network, extent, ..
    } = load;
    let version = hex::written(&load.version);
    let (over, any) = (u8::from(load.over), u8::from(load.answered));
    format!(
        "load open {network:02} {version} {} {} {over} {any}\n",
        extent.used, extent.records
    )
}

fn versions(device: &Device) -> String {
    let versions = device.tables.versions.iter().enumerate();
    versions
        .map(|(network, version)| format!("version {network:02} {}\n", hex::written(version)))
        .collect()
}
