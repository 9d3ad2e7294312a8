//! The proved code, called across the C boundary.
//!
//! Every call gets lent parts as pointer and length. What makes each of them
//! safe is the same: the parts are borrowed for the whole call, the lengths are
//! their own, a part to be written is `&mut` and so overlaps no other, and the
//! library keeps no pointer.

use second::answer::Answer;

pub mod device;
pub mod message;
pub mod object;
pub mod packet;
pub mod table;

/// The answer as the library hands it back.
#[repr(C)]
struct Returned {
    refusal: u8,
    length: usize,
}

impl Returned {
    fn answer(self) -> Answer {
        (self.refusal, self.length)
    }
}
