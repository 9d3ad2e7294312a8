//! The object calls.

use super::Returned;
use second::answer::Answer;

/// What the object reader hands back: the refusal, and the lengths of the tag,
/// of the header and of the whole object.
#[derive(Debug, PartialEq)]
#[repr(C)]
pub struct ObjectRead {
    pub refusal: u8,
    pub tag: usize,
    pub header: usize,
    pub whole: usize,
}

extern "C" {
    fn abecs_read_object(input: *const u8, len: usize) -> ObjectRead;
    fn abecs_write_object(
        tag: *const u8,
        tag_len: usize,
        value: *const u8,
        value_len: usize,
        out: *mut u8,
        out_len: usize,
    ) -> Returned;
    fn abecs_pick(
        tags: *const u8,
        tags_len: usize,
        objects: *const u8,
        objects_len: usize,
        out: *mut u8,
        out_len: usize,
    ) -> Returned;
}

/// The object reader.
pub fn read(input: &[u8]) -> ObjectRead {
    // SAFETY: as the module `proved` says.
    unsafe { abecs_read_object(input.as_ptr(), input.len()) }
}

/// The object writer.
pub fn write(tag: &[u8], value: &[u8], out: &mut [u8]) -> Answer {
    // SAFETY: as the module `proved` says.
    let returned = unsafe {
        abecs_write_object(
            tag.as_ptr(),
            tag.len(),
            value.as_ptr(),
            value.len(),
            out.as_mut_ptr(),
            out.len(),
        )
    };
    returned.answer()
}

/// Picking.
pub fn pick(tags: &[u8], objects: &[u8], out: &mut [u8]) -> Answer {
    // SAFETY: as the module `proved` says.
    let returned = unsafe {
        abecs_pick(
            tags.as_ptr(),
            tags.len(),
            objects.as_ptr(),
            objects.len(),
            out.as_mut_ptr(),
            out.len(),
        )
    };
    returned.answer()
}
