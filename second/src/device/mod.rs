//! The device end of the line.
//!
//! The scope paper, sections Reception, Commands and Numbered refusals of calls.
//! The state is the caller's to look at and even to change, so each call judges
//! it anew, together with the stores that it is lent.

mod command;
mod held;
mod reception;
mod tables;

pub use held::Held;
pub use reception::{Reception, State, CAN, NAK};
pub use tables::{OpenLoad, Tables};

use crate::answer::TOO_LITTLE_ROOM;
use crate::by_hand;
use crate::table::store::SIZE;
use reception::Took;

/// The least room that a call must be lent. No reply is as long.
pub const ROOM: usize = 64;

// The scope paper, section Numbered refusals of calls.
pub const WRONG_STORE: u8 = 2;
pub const BROKEN_RULE: u8 = 3;

/// Sent before a response packet.
const ACK: u8 = 0x06;
/// The reply to CAN.
const EOT: u8 = 0x04;

#[derive(Clone, Debug, PartialEq)]
pub struct Device {
    pub reception: Reception,
    pub tables: Tables,
    /// The held response, if there is one.
    pub held: Option<Held>,
}

/// What a call has done: its refusal number or 0, how many bytes of the piece it
/// took, and how many of a reply it wrote.
#[derive(Clone, Copy, Debug, Default, PartialEq)]
pub struct Done {
    pub refusal: u8,
    pub taken: usize,
    pub written: usize,
}

impl Device {
    /// A fresh device, and both stores zeroed; or the call's refusal number, and
    /// nothing is changed.
    pub fn start(live: &mut [u8], loading: &mut [u8]) -> Result<Self, u8> {
        if live.len() != SIZE || loading.len() != SIZE {
            return Err(WRONG_STORE);
        }
        live.fill(0);
        loading.fill(0);
        Ok(Device {
            reception: Reception::fresh(),
            tables: Tables::fresh(),
            held: None,
        })
    }

    /// Takes the piece, up to the byte that completes a reply.
    pub fn receive(
        &mut self,
        piece: &[u8],
        out: &mut [u8],
        live: &mut [u8],
        loading: &mut [u8],
    ) -> Done {
        let refusal = self.refusal(out.len(), live, loading);
        if refusal != 0 {
            return refused(refusal);
        }
        let mut taken = 0;
        while taken < piece.len() {
            let (length, took) = self.reception.take(&piece[taken..]);
            taken += length;
            let written = self.reply(took, out, live, loading);
            if written > 0 {
                return done(taken, written);
            }
        }
        done(taken, 0)
    }

    /// The timeout: what was received of a packet is given up.
    pub fn timeout(&mut self, room: usize, live: &[u8], loading: &[u8]) -> Done {
        let refusal = self.refusal(room, live, loading);
        if refusal != 0 {
            return refused(refusal);
        }
        self.reception.go_idle();
        done(0, 0)
    }

    /// The restart: all but the live tables and the versions is given up.
    pub fn restart(&mut self, room: usize, live: &[u8], loading: &mut [u8]) -> Done {
        let refusal = self.refusal(room, live, loading);
        if refusal != 0 {
            return refused(refusal);
        }
        self.reception.go_idle();
        self.tables.drop_load(loading);
        self.held = None;
        done(0, 0)
    }

    /// The refusal of a call with this room and these stores, or 0.
    fn refusal(&self, room: usize, live: &[u8], loading: &[u8]) -> u8 {
        if room < ROOM {
            return TOO_LITTLE_ROOM;
        }
        if live.len() != SIZE || loading.len() != SIZE {
            return WRONG_STORE;
        }
        let held_is_sound = self.held.as_ref().is_none_or(Held::is_sound);
        if !held_is_sound || !self.reception.is_sound() || !self.tables.are_sound(live, loading) {
            return BROKEN_RULE;
        }
        0
    }

    /// Writes the reply to what was taken; answers with its length, 0 for none.
    fn reply(&mut self, took: Took, out: &mut [u8], live: &mut [u8], loading: &mut [u8]) -> usize {
        match took {
            Took::Nothing => 0,
            Took::BadPacket => control(NAK, out),
            Took::Can => {
                self.held = None;
                control(EOT, out)
            }
            Took::Nak => {
                let payload = self.held.as_mut().and_then(Held::again);
                payload.map_or(0, |payload| packet(payload, out))
            }
            Took::Payload(count) => {
                let payload = &self.reception.store[..count];
                let response = self.tables.run(payload, live, loading);
                let length = control(ACK, out) + packet(&response, &mut out[1..]);
                self.held = Some(Held::new(response));
                length
            }
        }
    }
}

/// A byte by itself at the start of the room.
fn control(byte: u8, out: &mut [u8]) -> usize {
    out[0] = byte;
    1
}

/// The packet of a response at the start of the room, which is long enough for
/// any.
fn packet(payload: &[u8], out: &mut [u8]) -> usize {
    let (refusal, length) = by_hand::packet::write(payload, out);
    assert_eq!(refusal, 0, "a response has its room");
    length
}

fn refused(refusal: u8) -> Done {
    Done {
        refusal,
        ..Done::default()
    }
}

fn done(taken: usize, written: usize) -> Done {
    Done {
        refusal: 0,
        taken,
        written,
    }
}
