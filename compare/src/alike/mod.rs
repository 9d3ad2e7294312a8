//! One call made of both programs, which must answer alike. Each function here
//! panics where the answers or the buffers differ.

use second::answer::{give, Answer, Outcome};
use second::script::{fresh_buffer, shown};

pub mod device;
pub mod message;
pub mod object;
pub mod packet;
pub mod table;

/// Bytes behind the lent part. The scope paper, section Numbered refusals of
/// calls, leaves no call any say over them.
const NOT_LENT: usize = 8;

/// The call is named by a line of the samples script, so a difference found here
/// can be run there.
fn assert_alike(
    line: impl Fn() -> String,
    room: usize,
    outcome: Outcome,
    proved: impl FnOnce(&mut [u8]) -> Answer,
) {
    let got = called(room, proved);
    let wanted = called(room, |out| give(outcome, out));
    if got != wanted {
        panic!(
            "{}\nproved {:?} {}\nsecond {:?} {}",
            line(),
            got.1,
            shown(&got.0),
            wanted.1,
            shown(&wanted.0),
        );
    }
}

/// The answer of one program to a call with that room, and the buffer after it, with
/// what was not lent behind it.
pub fn called(room: usize, call: impl FnOnce(&mut [u8]) -> Answer) -> (Vec<u8>, Answer) {
    let mut buffer = fresh_buffer(room + NOT_LENT);
    let answer = call(&mut buffer[..room]);
    (buffer, answer)
}
