//! Reception: what each byte of the line is to the device.
//!
//! The scope paper, section Reception. Nothing here knows of commands or
//! replies; the device is told what a byte has completed.

use crate::check::check_of;
use crate::packet::{DC3, ETB, LARGEST_PAYLOAD, SYN};

pub const NAK: u8 = 0x15;
pub const CAN: u8 = 0x18;

/// What lies between a payload byte and the second byte of its pair (the scope
/// paper, section Packet).
const PAIR_STEP: u8 = 0x20;

/// The five reception states.
#[derive(Clone, Copy, Debug, PartialEq)]
pub enum State {
    Idle,
    InData,
    InDataAfter13h,
    FirstCheckByte,
    /// Waiting for the second check byte, and holding the first.
    SecondCheckByte(u8),
}

#[derive(Clone, Debug, PartialEq)]
pub struct Reception {
    pub state: State,
    /// How many payload bytes of the present packet are in the store; 0 when
    /// idle.
    pub count: usize,
    /// Whether the present packet is spoiled; never when idle.
    pub spoiled: bool,
    /// The reception store. What is behind the count is left from longer packets.
    pub store: [u8; LARGEST_PAYLOAD],
}

/// What a byte has completed.
#[derive(Clone, Copy, Debug, PartialEq)]
pub enum Took {
    Nothing,
    /// 18h, when idle.
    Can,
    /// 15h, when idle.
    Nak,
    /// A packet that is spoiled or empty, or whose check differs.
    BadPacket,
    /// A good packet. So many payload bytes are at the start of the store.
    Payload(usize),
}

impl Reception {
    pub fn fresh() -> Self {
        Reception {
            state: State::Idle,
            count: 0,
            spoiled: false,
            store: [0; LARGEST_PAYLOAD],
        }
    }

    /// Whether no rule is broken. The store has none: it may hold anything.
    pub fn is_sound(&self) -> bool {
        match self.state {
            State::Idle => self.count == 0 && !self.spoiled,
            _ => self.count <= LARGEST_PAYLOAD,
        }
    }

    /// Forgets the present packet. Its bytes stay in the store.
    pub fn go_idle(&mut self) {
        self.state = State::Idle;
        self.count = 0;
        self.spoiled = false;
    }

    /// Takes bytes up to the first that completes something; tells how many they
    /// were, and what it was.
    pub fn take(&mut self, piece: &[u8]) -> (usize, Took) {
        for (place, &byte) in piece.iter().enumerate() {
            let took = self.take_byte(byte);
            if took != Took::Nothing {
                return (place + 1, took);
            }
        }
        (piece.len(), Took::Nothing)
    }

    #[inline]
    fn take_byte(&mut self, byte: u8) -> Took {
        match self.state {
            State::Idle => return self.idle(byte),
            State::InData => self.in_data(byte),
            State::InDataAfter13h => self.in_data_after_13h(byte),
            State::FirstCheckByte => self.state = State::SecondCheckByte(byte),
            State::SecondCheckByte(first) => return self.packet_ends([first, byte]),
        }
        Took::Nothing
    }

    fn idle(&mut self, byte: u8) -> Took {
        match byte {
            SYN => self.packet_starts(),
            CAN => return Took::Can,
            NAK => return Took::Nak,
            _ => {}
        }
        Took::Nothing
    }

    #[inline]
    fn in_data(&mut self, byte: u8) {
        match byte {
            SYN => self.packet_starts(),
            ETB => self.state = State::FirstCheckByte,
            DC3 => self.state = State::InDataAfter13h,
            plain => self.payload_byte(plain),
        }
    }

    /// SYN and ETB keep their meaning here. What is not the second byte of a pair
    /// is dropped, even where it would open one itself.
    fn in_data_after_13h(&mut self, byte: u8) {
        self.state = State::InData;
        match byte {
            SYN => self.packet_starts(),
            ETB => {
                self.spoiled = true;
                self.state = State::FirstCheckByte;
            }
            0x33 | 0x36 | 0x37 => self.payload_byte(byte - PAIR_STEP),
            _ => self.spoiled = true,
        }
    }

    fn packet_starts(&mut self) {
        self.state = State::InData;
        self.count = 0;
        self.spoiled = false;
    }

    /// A spoiled packet's bytes are stored as well; only those that have no place
    /// in the store are not.
    #[inline]
    fn payload_byte(&mut self, byte: u8) {
        match self.store.get_mut(self.count) {
            Some(place) => {
                *place = byte;
                self.count += 1;
            }
            None => self.spoiled = true,
        }
    }

    fn packet_ends(&mut self, check: [u8; 2]) -> Took {
        let (count, spoiled) = (self.count, self.spoiled);
        self.go_idle();
        if spoiled || count == 0 || check_of(&self.store[..count]) != u16::from_be_bytes(check) {
            return Took::BadPacket;
        }
        Took::Payload(count)
    }
}

#[cfg(test)]
mod tests {
    use super::{Reception, State, Took};
    use crate::packet::framed;

    /// All bytes but the last must complete nothing.
    fn last(reception: &mut Reception, bytes: &[u8]) -> Took {
        let (last, before) = bytes.split_last().expect("some bytes");
        for &byte in before {
            assert_eq!(reception.take_byte(byte), Took::Nothing);
        }
        reception.take_byte(*last)
    }

    /// What a packet with these bytes between SYN and ETB comes to, where its
    /// check is that of this payload.
    fn with_data(data: &[u8], payload: &[u8]) -> Took {
        let packet = framed(payload);
        let check = &packet[packet.len() - 2..];
        let bytes = [&[0x16], data, &[0x17], check].concat();
        last(&mut Reception::fresh(), &bytes)
    }

    #[test]
    fn every_byte_when_idle() {
        for byte in 0..=255 {
            let mut reception = Reception::fresh();
            let took = reception.take_byte(byte);
            let mut wanted = Reception::fresh();
            if byte == 0x16 {
                wanted.state = State::InData;
            }
            assert_eq!(reception, wanted, "{byte:02X}");
            let completed = match byte {
                0x15 => Took::Nak,
                0x18 => Took::Can,
                _ => Took::Nothing,
            };
            assert_eq!(took, completed, "{byte:02X}");
        }
    }

    /// The bytes behind it are not taken.
    #[test]
    fn a_piece_is_taken_up_to_what_it_completes() {
        let mut reception = Reception::fresh();
        assert_eq!(reception.take(&[]), (0, Took::Nothing));
        assert_eq!(reception.take(&[0x00, 0x18, 0x15]), (2, Took::Can));
        assert_eq!(reception.take(&[0x15, 0x15]), (1, Took::Nak));
        assert_eq!(reception.take(&framed(b"OPN")[..4]), (4, Took::Nothing));
        let rest = [&framed(b"OPN")[4..], &[0x16, b'x']].concat();
        assert_eq!(reception.take(&rest), (3, Took::Payload(3)));
        assert_eq!(reception.state, State::Idle);
        assert_eq!(&reception.store[..4], b"OPN\0");
    }

    #[test]
    fn every_byte_in_data() {
        for byte in 0..=255 {
            let mut reception = Reception::fresh();
            assert_eq!(last(&mut reception, &[0x16, b'A', byte]), Took::Nothing);
            let (state, count) = match byte {
                0x13 => (State::InDataAfter13h, 1),
                0x16 => (State::InData, 0),
                0x17 => (State::FirstCheckByte, 1),
                _ => (State::InData, 2),
            };
            assert_eq!((reception.state, reception.count), (state, count));
            assert!(!reception.spoiled);
            assert_eq!(reception.store[0], b'A');
            assert_eq!(reception.store[1], if count == 2 { byte } else { 0 });
        }
    }

    #[test]
    fn every_byte_after_13h() {
        for byte in 0..=255 {
            let mut reception = Reception::fresh();
            let bytes = [0x16, b'A', 0x13, byte];
            assert_eq!(last(&mut reception, &bytes), Took::Nothing);
            let (state, count, spoiled, second) = match byte {
                0x16 => (State::InData, 0, false, 0),
                0x17 => (State::FirstCheckByte, 1, true, 0),
                0x33 | 0x36 | 0x37 => (State::InData, 2, false, byte - 0x20),
                _ => (State::InData, 1, true, 0),
            };
            assert_eq!((reception.state, reception.count), (state, count));
            assert_eq!(reception.spoiled, spoiled, "{byte:02X}");
            assert_eq!(&reception.store[..2], [b'A', second]);
        }
    }

    #[test]
    fn control_bytes_in_data_are_data() {
        let payload = [0x18, 0x15, 0x06, 0x04];
        assert_eq!(with_data(&payload, &payload), Took::Payload(4));
    }

    /// The third 13h opens a pair again, since the second was dropped.
    #[test]
    fn three_13h_and_33h() {
        assert_eq!(with_data(&[0x13, 0x33], &[0x13]), Took::Payload(1));
        let mut reception = Reception::fresh();
        last(&mut reception, &[0x16, 0x13, 0x13, 0x13, 0x33]);
        assert_eq!((reception.count, reception.spoiled), (1, true));
        assert_eq!(reception.store[0], 0x13);
        assert_eq!(reception.state, State::InData);
    }

    #[test]
    fn a_spoiled_packet_is_bad_whatever_its_check() {
        for data in [&[b'A', 0x13][..], &[0x13, b'A', b'A'], &[b'A', 0x13, 0x13]] {
            assert_eq!(with_data(data, b"A"), Took::BadPacket, "{data:?}");
        }
        assert_eq!(with_data(&[], &[]), Took::BadPacket);
    }

    #[test]
    fn syn_starts_a_spoiled_packet_afresh() {
        for before in [&[0x16, 0x13, 0x00][..], &[0x16, 0x13], &[0x16, b'X']] {
            let bytes = [before, &framed(b"OPN")].concat();
            let mut reception = Reception::fresh();
            assert_eq!(last(&mut reception, &bytes), Took::Payload(3));
            assert_eq!(&reception.store[..3], b"OPN");
        }
    }

    /// The payloads of two bytes have every check there is, once each.
    #[test]
    fn a_check_byte_may_have_any_value() {
        let mut reception = Reception::fresh();
        for payload in (0..=0xFFFF_u16).map(u16::to_be_bytes) {
            let mut packet = framed(&payload);
            assert_eq!(last(&mut reception, &packet), Took::Payload(2));
            let place = packet.len() - 1 - usize::from(payload[1] % 2);
            packet[place] ^= 1 << (payload[0] % 8);
            assert_eq!(last(&mut reception, &packet), Took::BadPacket);
        }
    }

    #[test]
    fn payload_byte_2049_spoils_the_packet_and_is_not_stored() {
        let mut reception = Reception::fresh();
        let most = framed(&[0x13; 2048]);
        assert_eq!(last(&mut reception, &most), Took::Payload(2048));
        let over = [&[b'a'; 2048][..], b"b"].concat();
        assert_eq!(last(&mut reception, &framed(&over)), Took::BadPacket);
        assert_eq!(reception.store, [b'a'; 2048]);
        assert_eq!(reception.state, State::Idle);
        assert_eq!((reception.count, reception.spoiled), (0, false));
    }

    #[test]
    fn the_store_keeps_what_no_later_byte_replaces() {
        let mut reception = Reception::fresh();
        last(&mut reception, &framed(b"ABCDEF"));
        last(&mut reception, &[0x16, b'x', 0x13, b'-', b'y']);
        assert_eq!(&reception.store[..7], b"xyCDEF\0");
        reception.go_idle();
        assert_eq!(&reception.store[..7], b"xyCDEF\0");
    }

    #[test]
    fn what_is_sound() {
        let mut reception = Reception::fresh();
        assert!(reception.is_sound());
        reception.store = [0xFF; 2048];
        assert!(reception.is_sound());
        for (state, count, spoiled, sound) in [
            (State::Idle, 1, false, false),
            (State::Idle, 0, true, false),
            (State::InData, 0, true, true),
            (State::InDataAfter13h, 2048, false, true),
            (State::InData, 2049, true, false),
            (State::FirstCheckByte, usize::MAX, false, false),
            (State::SecondCheckByte(0x16), 2048, true, true),
        ] {
            (reception.state, reception.count) = (state, count);
            reception.spoiled = spoiled;
            assert_eq!(reception.is_sound(), sound, "{state:?} {count} {spoiled}");
        }
    }
}
