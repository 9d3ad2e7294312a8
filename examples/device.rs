//! A device on a line, from Rust: it is kept in this program's own memory over several calls, opens the line, loads a table and
//! loses its cable in the middle of the next load.
//!
//!     (cd crates/abecs && rt lib)
//!     mkdir -p target
//!     rustc -O -D warnings -L native=crates/abecs/out -l static=abecs examples/device.rs -o target/device-example-rs

const STORE: usize = 32_768;
const ROOM: usize = 64;

/// `struct abecs_device` of include/abecs.h. Only the library looks into it here.
#[repr(C)]
struct Device {
    small: [u8; 8],
    numbers: [usize; 6],
    payload: [u8; 19],
    version: [u8; 10],
    versions: [u8; 1000],
    store: [u8; 2048],
}

/// `struct abecs_taken`.
#[repr(C)]
struct Taken {
    refusal: u8,
    taken: usize,
    written: usize,
}

/// `struct abecs_answer`.
#[repr(C)]
struct Answer {
    refusal: u8,
    length: usize,
}

extern "C" {
    fn abecs_start(device: *mut Device, live: *mut u8, live_len: usize, loading: *mut u8, loading_len: usize) -> Taken;
    fn abecs_receive(
        device: *mut Device, piece: *const u8, piece_len: usize, out: *mut u8, out_len: usize, live: *mut u8, live_len: usize,
        loading: *mut u8, loading_len: usize,
    ) -> Taken;
    fn abecs_restart(
        device: *mut Device, out: *mut u8, out_len: usize, live: *mut u8, live_len: usize, loading: *mut u8, loading_len: usize,
    ) -> Taken;
    fn abecs_write_packet(payload: *const u8, payload_len: usize, out: *mut u8, out_len: usize) -> Answer;
    fn abecs_read_packet(bytes: *const u8, bytes_len: usize, out: *mut u8, out_len: usize) -> Answer;
}

/// The device and the two stores that belong to it.
struct Board {
    device: Box<Device>,
    live: Vec<u8>,
    loading: Vec<u8>,
}

impl Board {
    fn start() -> Self {
        let device = Device { small: [0; 8], numbers: [0; 6], payload: [0; 19], version: [0; 10], versions: [0; 1000], store: [0; 2048] };
        let mut board = Board { device: Box::new(device), live: vec![0; STORE], loading: vec![0; STORE] };
        // SAFETY: the device and both stores are this board's own, and no two of them overlap. So for every call below.
        let done = unsafe { abecs_start(&mut *board.device, board.live.as_mut_ptr(), STORE, board.loading.as_mut_ptr(), STORE) };
        assert_eq!((done.refusal, done.taken, done.written), (0, 0, 0));
        board
    }

    /// Hands over bytes until all are taken, and gives the replies, joined.
    fn hear(&mut self, mut piece: &[u8]) -> Vec<u8> {
        let mut said = Vec::new();
        while !piece.is_empty() {
            let mut out = [0; ROOM];
            // SAFETY: as above; `piece` and `out` overlap nothing.
            let done = unsafe {
                abecs_receive(
                    &mut *self.device, piece.as_ptr(), piece.len(), out.as_mut_ptr(), ROOM, self.live.as_mut_ptr(), STORE,
                    self.loading.as_mut_ptr(), STORE,
                )
            };
            assert_eq!(done.refusal, 0);
            said.extend_from_slice(&out[..done.written]);
            piece = &piece[done.taken..];
        }
        said
    }

    fn restart(&mut self) {
        let mut out = [0; ROOM];
        // SAFETY: as above.
        let done = unsafe {
            abecs_restart(&mut *self.device, out.as_mut_ptr(), ROOM, self.live.as_mut_ptr(), STORE, self.loading.as_mut_ptr(), STORE)
        };
        assert_eq!(done.refusal, 0);
    }

    /// Sends a command and gives the payload of the response.
    fn ask(&mut self, payload: &str) -> String {
        let said = self.hear(&packet(payload.as_bytes()));
        assert_eq!(said[0], 0x06);
        let mut read = [0; 2048];
        // SAFETY: as above.
        let answer = unsafe { abecs_read_packet(said[1..].as_ptr(), said.len() - 1, read.as_mut_ptr(), read.len()) };
        assert_eq!(answer.refusal, 0);
        let response = String::from_utf8_lossy(&read[..answer.length]).into_owned();
        println!("{payload:20} {response}");
        response
    }
}

fn packet(payload: &[u8]) -> Vec<u8> {
    let mut out = vec![0; 4100];
    // SAFETY: as above.
    let answer = unsafe { abecs_write_packet(payload.as_ptr(), payload.len(), out.as_mut_ptr(), out.len()) };
    assert_eq!(answer.refusal, 0);
    out.truncate(answer.length);
    out
}

fn main() {
    let mut board = Board::start();
    assert_eq!(board.ask("OPN"), "OPN000");
    assert_eq!(board.ask("TLI01201VERSION001"), "TLI020");
    assert_eq!(board.ask("TLR01001008101AB"), "TLR000");
    assert_eq!(board.ask("TLE"), "TLE000");
    assert_eq!(board.ask("GTS00201"), "GTS000010VERSION001");
    // The next load comes half-way, and then the board loses its power.
    assert_eq!(board.ask("TLI01201VERSION002"), "TLI020");
    assert_eq!(board.ask("TLR01001008101CD"), "TLR000");
    board.restart();
    assert_eq!(board.ask("GTS00201"), "GTS000010VERSION001");
    assert_eq!(&board.live[..9], b"008101AB\0");
    println!("the old set is live, under its own name");
}
