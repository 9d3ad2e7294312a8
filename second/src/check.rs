//! The check of a packet, a whole byte at a time by table.
//!
//! The scope paper, section Packet: the register starts at 0 and is divided by
//! the polynomial 1021h, top bit first, and is sent as it comes out.

use crate::packet::ETB;

const POLYNOMIAL: u16 = 0x1021;

static TABLE: [u16; 256] = table();

/// What eight shifts make of each value of the register's high byte. The low
/// byte only moves up meanwhile, so it need not be in the table.
const fn table() -> [u16; 256] {
    let mut table = [0; 256];
    let mut high = 0;
    while high < 256 {
        let mut register = (high as u16) << 8;
        let mut bit = 0;
        while bit < 8 {
            let carry = register & 0x8000 != 0;
            register <<= 1;
            if carry {
                register ^= POLYNOMIAL;
            }
            bit += 1;
        }
        table[high] = register;
        high += 1;
    }
    table
}

fn step(register: u16, byte: u8) -> u16 {
    let [high, low] = register.to_be_bytes();
    TABLE[usize::from(high ^ byte)] ^ (u16::from(low) << 8)
}

/// The check over bare bytes. Some checks printed in the documents are of this
/// kind, with no packet and no ETB around the data.
pub fn without_etb(bytes: &[u8]) -> u16 {
    bytes.iter().fold(0, |register, &byte| step(register, byte))
}

/// The check that the packet of this payload carries: the scope paper, section
/// Packet, has ETB follow the payload, which counts as it was before any
/// substitution.
pub fn check_of(payload: &[u8]) -> u16 {
    step(without_etb(payload), ETB)
}

#[cfg(test)]
mod tests {
    use super::{check_of, without_etb};

    /// The value by which this check is known in the world: no start value and
    /// no final change, over the nine digits.
    #[test]
    fn the_nine_digits() {
        assert_eq!(without_etb(b"123456789"), 0x31C3);
    }

    #[test]
    fn nothing_leaves_the_start_value() {
        assert_eq!(without_etb(&[]), 0);
    }

    /// The scope paper, section Sample line traffic.
    #[test]
    fn the_papers_samples() {
        assert_eq!(check_of(b"OPN"), 0xA8A9);
        assert_eq!(check_of(b"OPN000"), 0x775E);
        assert_eq!(check_of(&[0x16]), 0xCB03);
    }

    #[test]
    fn etb_is_the_last_byte_under_the_check() {
        assert_eq!(check_of(b"OPN"), without_etb(b"OPN\x17"));
    }
}
