//! The message calls. RESPONSE is 0 for a command and anything else for a
//! response.

use super::Returned;
use second::answer::Answer;

extern "C" {
    fn abecs_read_message(
        message: *const u8,
        len: usize,
        response: u8,
        out: *mut u8,
        out_len: usize,
    ) -> Returned;
    fn abecs_write_message(
        head: *const u8,
        head_len: usize,
        response: u8,
        list: *const u8,
        list_len: usize,
        out: *mut u8,
        out_len: usize,
    ) -> Returned;
    fn abecs_find_parameter(
        list: *const u8,
        len: usize,
        number: u16,
        n: usize,
        out: *mut u8,
        out_len: usize,
    ) -> Returned;
}

/// The message reader.
pub fn read(message: &[u8], response: u8, out: &mut [u8]) -> Answer {
    // SAFETY: as the module `proved` says.
    let returned = unsafe {
        abecs_read_message(
            message.as_ptr(),
            message.len(),
            response,
            out.as_mut_ptr(),
            out.len(),
        )
    };
    returned.answer()
}

/// The message writer.
pub fn write(head: &[u8], response: u8, list: &[u8], out: &mut [u8]) -> Answer {
    // SAFETY: as the module `proved` says.
    let returned = unsafe {
        abecs_write_message(
            head.as_ptr(),
            head.len(),
            response,
            list.as_ptr(),
            list.len(),
            out.as_mut_ptr(),
            out.len(),
        )
    };
    returned.answer()
}

/// The nth parameter of that number, its data copied to the buffer.
pub fn find(list: &[u8], number: u16, n: usize, out: &mut [u8]) -> Answer {
    // SAFETY: as the module `proved` says.
    let returned = unsafe {
        abecs_find_parameter(
            list.as_ptr(),
            list.len(),
            number,
            n,
            out.as_mut_ptr(),
            out.len(),
        )
    };
    returned.answer()
}
