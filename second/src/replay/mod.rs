//! The program `replay`: a script of device calls, and the log of what they
//! answered and what they left.
//!
//! | bytes | calls |
//! |---|---|
//! | `B`, LENGTH, PIECE | with the piece, until all of it is taken |
//! | `T` | a timeout |
//! | `R` | a restart |
//!
//! LENGTH is that of the piece, in two bytes, high byte first. The device starts
//! fresh and has 64 bytes of room in each call.
//!
//! The log has a line for each call: `B REFUSAL TAKEN REPLY`, `T REFUSAL` or `R
//! REFUSAL`. Where the script has something else, or breaks off, the line is `bad
//! script` and no call comes after it: a piece that is not there whole is not
//! handed over. The state that the device is left in ends the log.

mod calls;
mod state;
pub mod stored;
mod uncut;

pub use calls::Calls;
pub use uncut::uncut;

use crate::device::ROOM;
use crate::line::Line;
use crate::script::shown;

/// What a script asks for.
enum Call<'a> {
    Piece(&'a [u8]),
    Timeout,
    Restart,
}

/// The log of a script.
pub fn run(script: &[u8]) -> Vec<u8> {
    let mut line = Line::fresh();
    let mut log = String::new();
    let mut rest = script;
    while !rest.is_empty() {
        let Some((call, after)) = first(rest) else {
            log += "bad script\n";
            break;
        };
        log += &made(&mut line, call);
        rest = after;
    }
    log += &state::shown_of(&line);
    log.into_bytes()
}

/// The call at the start of the script and what follows it; None where there is
/// none, or not all of it.
fn first(script: &[u8]) -> Option<(Call<'_>, &[u8])> {
    let (letter, after) = script.split_first()?;
    match letter {
        b'B' => {
            let (length, after) = after.split_first_chunk()?;
            let length = usize::from(u16::from_be_bytes(*length));
            let (piece, after) = after.split_at_checked(length)?;
            Some((Call::Piece(piece), after))
        }
        b'T' => Some((Call::Timeout, after)),
        b'R' => Some((Call::Restart, after)),
        _ => None,
    }
}

/// Makes the call; answers with its lines.
fn made(line: &mut Line, call: Call) -> String {
    match call {
        Call::Piece(piece) => handed_over(line, piece),
        Call::Timeout => {
            let done = line.device.timeout(ROOM, &line.live, &line.loading);
            format!("T {}\n", done.refusal)
        }
        Call::Restart => {
            let done = line.device.restart(ROOM, &line.live, &mut line.loading);
            format!("R {}\n", done.refusal)
        }
    }
}

/// Offers the piece until all of it is taken, an empty one once. A refusal takes
/// no byte, so that another offer would be refused as well: it ends them.
fn handed_over(line: &mut Line, mut piece: &[u8]) -> String {
    let mut lines = String::new();
    let mut out = [0; ROOM];
    loop {
        let done = line
            .device
            .receive(piece, &mut out, &mut line.live, &mut line.loading);
        let reply = shown(&out[..done.written]);
        lines += &format!("B {} {} {reply}\n", done.refusal, done.taken);
        piece = &piece[done.taken..];
        if piece.is_empty() || done.refusal != 0 {
            return lines;
        }
    }
}
