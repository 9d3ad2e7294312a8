//! The device calls: both programs' devices side by side, each with stores of its
//! own.

mod image;
mod told;

pub use image::{device_of, image_of};

use super::NOT_LENT;
use crate::proved::device::{self as proved, Image};
use second::answer::TOO_LITTLE_ROOM;
use second::device::{Device, Done, BROKEN_RULE, ROOM, WRONG_STORE};
use second::script::{fresh_buffer, shown};
use second::table::store::SIZE;
use told::{differing, fields_told};

/// What stands behind a store.
const BEHIND: [u8; NOT_LENT] = [0xEE; NOT_LENT];

#[derive(Clone, Copy, Debug, PartialEq)]
pub enum Call<'a> {
    Receive(&'a [u8]),
    Timeout,
    Restart,
}

/// What the owner of a device keeps between calls.
#[derive(Clone, PartialEq)]
pub struct Kept<D> {
    pub device: D,
    pub live: Vec<u8>,
    pub loading: Vec<u8>,
}

/// Both programs' devices. After each call every field of the image and every byte
/// of the stores is compared. Behind each store there are bytes that are not lent.
pub struct Devices {
    proved: Kept<Image>,
    /// None where the image is no device's; the second program can't be handed
    /// that at all.
    second: Kept<Option<Device>>,
}

impl Devices {
    /// Starts both in memory full of other bytes, with stores of these lengths.
    pub fn start(lengths: [usize; 2]) -> (Self, Done) {
        let [live, loading] = lengths.map(fresh_buffer);
        Devices::start_over(&Kept {
            device: Image::filled(0xEE),
            live,
            loading,
        })
    }

    /// Starts both in memory that holds this, be it a device or not.
    pub fn start_over(kept: &Kept<Image>) -> (Self, Done) {
        let lengths = [kept.live.len(), kept.loading.len()];
        let mut devices = Devices::of(kept);
        let got = devices.proved.lend(proved::start);
        let Kept { live, loading, .. } = &mut devices.second;
        let refusal = match Device::start(lent(live), lent(loading)) {
            Ok(device) => {
                devices.second.device = Some(device);
                0
            }
            Err(refusal) => refusal,
        };
        assert_eq!(got, refused(refusal), "start {lengths:?}");
        devices.assert_alike(kept, || format!("start {lengths:?}"));
        (devices, got)
    }

    /// Both with this image and these stores, be they sound or not.
    pub fn of(kept: &Kept<Image>) -> Self {
        let [live, loading] =
            [&kept.live, &kept.loading].map(|store| [store, &BEHIND[..]].concat());
        Devices {
            second: Kept {
                device: device_of(&kept.device),
                live: live.clone(),
                loading: loading.clone(),
            },
            proved: Kept {
                device: kept.device.clone(),
                live,
                loading,
            },
        }
    }

    /// What the proved code has, and so the other.
    pub fn kept(&self) -> Kept<Image> {
        let Kept {
            device,
            live,
            loading,
        } = &self.proved;
        let [live, loading] = [live, loading].map(|store| store[..store.len() - NOT_LENT].to_vec());
        Kept {
            device: device.clone(),
            live,
            loading,
        }
    }

    /// The proved code's image, and so the other's.
    pub fn image(&self) -> &Image {
        &self.proved.device
    }

    /// Makes the call, with that room. A refused one must leave everything as it
    /// was.
    pub fn call(&mut self, call: Call, room: usize) -> Done {
        let before = self.kept();
        let told = || {
            format!(
                "{call:02X?}, room {room}, before {}",
                fields_told(&before.device)
            )
        };
        let fresh = fresh_buffer(room + NOT_LENT);
        let [mut got_out, mut wanted_out] = [fresh.clone(), fresh.clone()];
        let got = call_proved(&mut self.proved, call, &mut got_out[..room]);
        let wanted = call_second(&mut self.second, call, &mut wanted_out[..room]);
        assert_eq!(got, wanted, "proved and second, {}", told());
        if got_out != wanted_out {
            let outs = [got_out, wanted_out].map(|out| shown(&out));
            panic!("the replies {outs:?} differ, {}", told());
        }
        self.assert_alike(&before, told);
        if got.refusal != 0 {
            let nothing = refused(got.refusal);
            assert_eq!(got, nothing, "{}", told());
            assert!(self.kept() == before, "a refusal has changed, {}", told());
            assert!(got_out == fresh, "a refusal has written, {}", told());
        }
        got
    }

    /// Offers the piece until all of it is taken, an empty one once; answers with
    /// what was done. A refusal ends the offers.
    pub fn hand_over(&mut self, mut piece: &[u8], room: usize) -> Vec<Done> {
        let mut all = Vec::new();
        loop {
            let done = self.call(Call::Receive(piece), room);
            all.push(done);
            piece = &piece[done.taken..];
            if piece.is_empty() || done.refusal != 0 {
                return all;
            }
        }
    }

    /// An image that is no device's is one that no call may change.
    fn assert_alike(&self, before: &Kept<Image>, call: impl Fn() -> String) {
        let Devices { proved, second } = self;
        let wanted = match &second.device {
            Some(device) => image_of(device),
            None => before.device.clone(),
        };
        if proved.device != wanted {
            let differing = differing(&proved.device, &wanted);
            panic!("proved and second, {differing}, after {}", call());
        }
        for (name, got, wanted) in [
            ("live", &proved.live, &second.live),
            ("loading", &proved.loading, &second.loading),
        ] {
            if got != wanted {
                let same = got.iter().zip(wanted).take_while(|(a, b)| a == b).count();
                panic!("the {name} stores differ from place {same} on, {}", call());
            }
        }
    }
}

impl Kept<Image> {
    /// Lends the image and both stores. What stands behind the image must stay.
    fn lend(&mut self, call: impl FnOnce(&mut Image, &mut [u8], &mut [u8]) -> Done) -> Done {
        let mut images = [self.device.clone(), Image::filled(0xEE)];
        let done = call(
            &mut images[0],
            lent(&mut self.live),
            lent(&mut self.loading),
        );
        let [image, behind] = images;
        assert!(behind == Image::filled(0xEE), "written behind the image");
        self.device = image;
        done
    }
}

/// The part of a store that a call may see.
fn lent(store: &mut [u8]) -> &mut [u8] {
    let length = store.len() - NOT_LENT;
    &mut store[..length]
}

fn call_proved(kept: &mut Kept<Image>, call: Call, out: &mut [u8]) -> Done {
    kept.lend(|image, live, loading| match call {
        Call::Receive(piece) => proved::receive(image, piece, out, live, loading),
        Call::Timeout => proved::timeout(image, out, live, loading),
        Call::Restart => proved::restart(image, out, live, loading),
    })
}

fn call_second(kept: &mut Kept<Option<Device>>, call: Call, out: &mut [u8]) -> Done {
    let (live, loading) = (lent(&mut kept.live), lent(&mut kept.loading));
    match (&mut kept.device, call) {
        (None, _) => refused(refusal_without_device(
            out.len(),
            [live.len(), loading.len()],
        )),
        (Some(device), Call::Receive(piece)) => device.receive(piece, out, live, loading),
        (Some(device), Call::Timeout) => device.timeout(out.len(), live, loading),
        (Some(device), Call::Restart) => device.restart(out.len(), live, loading),
    }
}

/// The order of the refusals is the scope paper's, section Numbered refusals of
/// calls.
fn refusal_without_device(room: usize, lengths: [usize; 2]) -> u8 {
    match (room < ROOM, lengths == [SIZE; 2]) {
        (true, _) => TOO_LITTLE_ROOM,
        (false, false) => WRONG_STORE,
        (false, true) => BROKEN_RULE,
    }
}

fn refused(refusal: u8) -> Done {
    Done {
        refusal,
        ..Done::default()
    }
}
