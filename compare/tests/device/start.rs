//! Starting a device, and the stores and rooms that calls ask for.

use super::SIZES;
use compare::alike::device::{Call, Devices, Kept};
use compare::proved::device::Image;
use second::packet::framed;
use second::script::fresh_buffer;
use second::table::store::SIZE;

/// One right and some wrong.
const LENGTHS: [usize; 7] = [SIZE, 0, 1, 64, SIZE - 1, SIZE + 1, 2 * SIZE];

/// A refused start leaves the image that it was lent, be it a device in the middle
/// of a load or no device at all, and both stores.
#[test]
fn stores_of_right_and_wrong_lengths() {
    for device in [Image::filled(0xEE), Image::filled(0), in_a_load()] {
        for [live, loading] in LENGTHS.map(|one| LENGTHS.map(|other| [one, other])).concat() {
            let before = Kept {
                device: device.clone(),
                live: fresh_buffer(live),
                loading: fresh_buffer(loading),
            };
            let (devices, done) = Devices::start_over(&before);
            if [live, loading] == SIZES {
                assert_eq!(done.refusal, 0);
                assert!(devices.kept() == fresh());
            } else {
                assert_eq!(done.refusal, 2);
                assert!(devices.kept() == before, "{live} and {loading} bytes");
            }
        }
    }
}

/// The image of a device with a load open and a response held.
fn in_a_load() -> Image {
    let (mut devices, _) = Devices::start(SIZES);
    devices.hand_over(&framed(b"TLI01201VERSION001"), 64);
    let image = devices.kept().device;
    assert!(image.opened == 1 && image.length == 6);
    image
}

/// What a fresh device is, by the scope paper's section Commands alone.
fn fresh() -> Kept<Image> {
    Kept {
        device: Image {
            versions: [b'0'; 1000],
            ..Image::filled(0)
        },
        live: vec![0; SIZE],
        loading: vec![0; SIZE],
    }
}

/// Each call with each room and each pair of lengths, of a device that is sound,
/// of one that is not, and of an image that is no device's.
#[test]
fn the_order_of_refusals() {
    let opn = framed(b"OPN");
    let [mut unsound, mut none] = [fresh(), fresh()];
    unsound.device.count = 1;
    none.device.state = 5;
    for kept in [fresh(), unsound, none] {
        let broken = kept != fresh();
        for lengths in LENGTHS
            .map(|one| [[SIZE, one], [one, SIZE], [one, one]])
            .concat()
        {
            let mut lent = kept.clone();
            lent.live.resize(lengths[0], 0);
            lent.loading.resize(lengths[1], 0);
            for (room, call) in (0..=2).chain(62..=65).flat_map(|room| {
                [Call::Receive(&opn), Call::Timeout, Call::Restart].map(|call| (room, call))
            }) {
                let refusal = match (room < 64, lengths == SIZES, broken) {
                    (true, _, _) => 1,
                    (false, false, _) => 2,
                    (false, true, true) => 3,
                    (false, true, false) => 0,
                };
                let done = Devices::of(&lent).call(call, room);
                assert_eq!(done.refusal, refusal, "{call:?} {room} {lengths:?}");
            }
        }
    }
}
