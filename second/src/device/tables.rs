//! The commands on the tables: what each changes, and what it is answered.
//!
//! The scope paper, section Commands. The records themselves are in the lent
//! stores, so this works on those where they stand.

use super::command::Command;
use crate::by_hand::table::{add_block, block_is_good, check_store, close_load, Extent};
use crate::table::version::{self, Version, Versions};
use crate::table::ALL;

/// The codes of responses.
const DONE: &[u8] = b"000";
const NO_LOAD: &[u8] = b"010";
const MALFORMED: &[u8] = b"011";
const OTHER_VERSION: &[u8] = b"020";
const OVER: &[u8] = b"021";

/// What the device knows of its tables beside the records.
#[derive(Clone, Debug, PartialEq)]
pub struct Tables {
    /// The version store.
    pub versions: Versions,
    /// How far the live store is used.
    pub live: Extent,
    pub load: Option<OpenLoad>,
}

/// A load that TLI opened and TLE has not closed.
#[derive(Clone, Debug, PartialEq)]
pub struct OpenLoad {
    pub network: u8,
    pub version: Version,
    /// Whether a TLR has been answered 000.
    pub answered: bool,
    /// How far the loading store is used.
    pub extent: Extent,
    /// Whether a record that was taken could not be kept.
    pub over: bool,
}

impl OpenLoad {
    fn new(network: u8, version: Version) -> Self {
        OpenLoad {
            network,
            version,
            answered: false,
            extent: Extent::default(),
            over: false,
        }
    }

    /// Whether no rule is broken, the loading store's included.
    fn is_sound(&self, loading: &[u8]) -> bool {
        let has_cause = self.answered || (self.extent.records == 0 && !self.over);
        has_cause
            && self.network <= 99
            && version::is_printable(&self.version)
            && check_store(loading, self.extent, self.network)
    }
}

impl Tables {
    pub fn fresh() -> Self {
        Tables {
            versions: version::FRESH,
            live: Extent::default(),
            load: None,
        }
    }

    /// Whether these and both lent stores break no rule (the scope paper, section
    /// Numbered refusals of calls, refusal 3). With no load open the loading
    /// store is one without records.
    pub fn are_sound(&self, live: &[u8], loading: &[u8]) -> bool {
        let load_is_sound = match &self.load {
            Some(load) => load.is_sound(loading),
            None => check_store(loading, Extent::default(), ALL),
        };
        load_is_sound
            && version::is_printable(self.versions.as_flattened())
            && check_store(live, self.live, ALL)
    }

    /// Drops an open load.
    pub fn drop_load(&mut self, loading: &mut [u8]) {
        if let Some(load) = self.load.take() {
            loading[..load.extent.used].fill(0);
        }
    }

    /// Runs the command of a payload; answers with the response's payload.
    pub fn run(&mut self, payload: &[u8], live: &mut [u8], loading: &mut [u8]) -> Vec<u8> {
        match Command::of(payload) {
            Command::Opn => [b"OPN", DONE].concat(),
            Command::Gts(network) => self.gts(network),
            Command::Tli(network, version) => {
                [b"TLI", self.tli(network, version, loading)].concat()
            }
            Command::Tlr(block) => [b"TLR", self.tlr(block, loading)].concat(),
            Command::Tle => [b"TLE", self.tle(live, loading)].concat(),
            Command::WrongLayout(name) => [name, MALFORMED].concat(),
            Command::Unknown => b"ERR010".to_vec(),
        }
    }

    fn gts(&self, network: u8) -> Vec<u8> {
        let version = &self.versions[usize::from(network)];
        [b"GTS", DONE, b"010", version].concat()
    }

    /// The load is opened with either code; the version is not changed before the
    /// load is closed.
    fn tli(&mut self, network: u8, version: Version, loading: &mut [u8]) -> &'static [u8] {
        self.drop_load(loading);
        self.load = Some(OpenLoad::new(network, version));
        match self.versions[usize::from(network)] == version {
            true => DONE,
            false => OTHER_VERSION,
        }
    }

    /// That no load is open is said before anything of the layout.
    fn tlr(&mut self, block: Option<&[u8]>, loading: &mut [u8]) -> &'static [u8] {
        let Some(load) = &mut self.load else {
            return NO_LOAD;
        };
        let Some(block) = block.filter(|block| block_is_good(block)) else {
            return MALFORMED;
        };
        load.answered = true;
        let OpenLoad { extent, over, .. } = load;
        *over = add_block(loading, extent, *over, load.network, block);
        DONE
    }

    fn tle(&mut self, live: &mut [u8], loading: &mut [u8]) -> &'static [u8] {
        let Some(load) = self.load.take() else {
            return NO_LOAD;
        };
        let OpenLoad { network, over, .. } = load;
        if !close_load(live, loading, &mut self.live, load.extent, over, network) {
            return OVER;
        }
        let version = version::brought(load.version, load.answered);
        version::closed(&mut self.versions, network, version);
        DONE
    }
}
