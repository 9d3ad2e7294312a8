//! The packet calls.

use super::Returned;
use second::answer::Answer;

extern "C" {
    fn abecs_write_packet(
        payload: *const u8,
        payload_len: usize,
        out: *mut u8,
        out_len: usize,
    ) -> Returned;
    fn abecs_read_packet(
        bytes: *const u8,
        bytes_len: usize,
        out: *mut u8,
        out_len: usize,
    ) -> Returned;
    fn abecs_check_of(payload: *const u8, len: usize) -> u16;
}

/// The packet writer.
pub fn write(payload: &[u8], out: &mut [u8]) -> Answer {
    // SAFETY: as the module `proved` says.
    let returned =
        unsafe { abecs_write_packet(payload.as_ptr(), payload.len(), out.as_mut_ptr(), out.len()) };
    returned.answer()
}

/// The packet reader.
pub fn read(bytes: &[u8], out: &mut [u8]) -> Answer {
    // SAFETY: as the module `proved` says.
    let returned =
        unsafe { abecs_read_packet(bytes.as_ptr(), bytes.len(), out.as_mut_ptr(), out.len()) };
    returned.answer()
}

/// The check that the packet of this payload carries, ETB counted in.
pub fn check_of(payload: &[u8]) -> u16 {
    // SAFETY: as the module `proved` says.
    unsafe { abecs_check_of(payload.as_ptr(), payload.len()) }
}
