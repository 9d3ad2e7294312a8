//! The device calls, as include/abecs.h has them.

use second::device::Done;

/// A device between two calls, in its owner's memory: `struct abecs_device`.
#[derive(Clone, Debug, PartialEq)]
#[repr(C)]
pub struct Image {
    /// The code of the reception state, 0 to 4.
    pub state: u8,
    /// The first check byte in state 4.
    pub first: u8,
    pub spoiled: u8,
    /// How often the held response was sent again.
    pub times: u8,
    pub opened: u8,
    pub network: u8,
    pub over: u8,
    pub any: u8,
    pub count: usize,
    /// That of the held response's payload, 0 for none.
    pub length: usize,
    pub live_used: usize,
    pub live_records: usize,
    pub load_used: usize,
    pub load_records: usize,
    pub payload: [u8; 19],
    pub version: [u8; 10],
    pub versions: [u8; 1000],
    pub store: [u8; 2048],
}

impl Image {
    /// Memory that no device has been started in: every byte is this one.
    pub fn filled(byte: u8) -> Self {
        let number = usize::from_ne_bytes([byte; size_of::<usize>()]);
        Image {
            state: byte,
            first: byte,
            spoiled: byte,
            times: byte,
            opened: byte,
            network: byte,
            over: byte,
            any: byte,
            count: number,
            length: number,
            live_used: number,
            live_records: number,
            load_used: number,
            load_records: number,
            payload: [byte; 19],
            version: [byte; 10],
            versions: [byte; 1000],
            store: [byte; 2048],
        }
    }
}

/// The answer as the library hands it back.
#[repr(C)]
struct Taken {
    refusal: u8,
    taken: usize,
    written: usize,
}

impl Taken {
    fn done(self) -> Done {
        Done {
            refusal: self.refusal,
            taken: self.taken,
            written: self.written,
        }
    }
}

extern "C" {
    fn abecs_start(
        device: *mut Image,
        live: *mut u8,
        live_len: usize,
        loading: *mut u8,
        loading_len: usize,
    ) -> Taken;
    fn abecs_receive(
        device: *mut Image,
        piece: *const u8,
        piece_len: usize,
        out: *mut u8,
        out_len: usize,
        live: *mut u8,
        live_len: usize,
        loading: *mut u8,
        loading_len: usize,
    ) -> Taken;
    fn abecs_timeout(
        device: *mut Image,
        out: *mut u8,
        out_len: usize,
        live: *mut u8,
        live_len: usize,
        loading: *mut u8,
        loading_len: usize,
    ) -> Taken;
    fn abecs_restart(
        device: *mut Image,
        out: *mut u8,
        out_len: usize,
        live: *mut u8,
        live_len: usize,
        loading: *mut u8,
        loading_len: usize,
    ) -> Taken;
}

/// Starts a fresh device.
pub fn start(image: &mut Image, live: &mut [u8], loading: &mut [u8]) -> Done {
    // SAFETY: as the module `proved` says.
    let taken = unsafe {
        abecs_start(
            image,
            live.as_mut_ptr(),
            live.len(),
            loading.as_mut_ptr(),
            loading.len(),
        )
    };
    taken.done()
}

/// Takes the piece, up to the byte that completes a reply.
pub fn receive(
    image: &mut Image,
    piece: &[u8],
    out: &mut [u8],
    live: &mut [u8],
    loading: &mut [u8],
) -> Done {
    // SAFETY: as the module `proved` says.
    let taken = unsafe {
        abecs_receive(
            image,
            piece.as_ptr(),
            piece.len(),
            out.as_mut_ptr(),
            out.len(),
            live.as_mut_ptr(),
            live.len(),
            loading.as_mut_ptr(),
            loading.len(),
        )
    };
    taken.done()
}

/// How an event comes from outside the line: a timeout and a restart are called alike.
type EventCall =
    unsafe extern "C" fn(*mut Image, *mut u8, usize, *mut u8, usize, *mut u8, usize) -> Taken;

fn event(
    call: EventCall,
    image: &mut Image,
    out: &mut [u8],
    live: &mut [u8],
    loading: &mut [u8],
) -> Done {
    // SAFETY: as the module `proved` says.
    let taken = unsafe {
        call(
            image,
            out.as_mut_ptr(),
            out.len(),
            live.as_mut_ptr(),
            live.len(),
            loading.as_mut_ptr(),
            loading.len(),
        )
    };
    taken.done()
}

/// The timeout.
pub fn timeout(image: &mut Image, out: &mut [u8], live: &mut [u8], loading: &mut [u8]) -> Done {
    event(abecs_timeout, image, out, live, loading)
}

/// The restart.
pub fn restart(image: &mut Image, out: &mut [u8], live: &mut [u8], loading: &mut [u8]) -> Done {
    event(abecs_restart, image, out, live, loading)
}
