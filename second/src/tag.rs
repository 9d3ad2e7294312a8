//! Tags and tag lists.
//!
//! The scope paper, section Data objects: one byte, or two where the low five
//! bits of the first are all set.

use crate::pieces;

/// The scope paper, section Numbered refusals of calls.
pub const TAG_WRONG: u8 = 30;

/// The tag at the start, and what follows it. Nothing at all is no tag.
pub fn first(bytes: &[u8]) -> Result<(&[u8], &[u8]), u8> {
    let length = match bytes {
        [0x00 | 0xFF, ..] => None,
        [first, ..] if first & 0x1F != 0x1F => Some(1),
        [_, 0x00..=0x7F, ..] => Some(2),
        _ => None,
    };
    Ok(bytes.split_at(length.ok_or(TAG_WRONG)?))
}

/// The tags that these bytes are, nothing left over.
pub fn list(bytes: &[u8]) -> Result<Vec<&[u8]>, u8> {
    pieces::all(bytes, first)
}

#[cfg(test)]
mod tests {
    use super::{first, list};

    fn length(bytes: &[u8]) -> Result<usize, u8> {
        first(bytes).map(|(tag, rest)| {
            assert_eq!([tag, rest].concat(), bytes);
            tag.len()
        })
    }

    #[test]
    fn the_first_byte_tells_the_length() {
        for byte in 0..=255 {
            let two = [0x1F, 0x3F, 0x5F, 0x7F, 0x9F, 0xBF, 0xDF].contains(&byte);
            let (alone, followed) = match byte {
                0x00 | 0xFF => (Err(30), Err(30)),
                _ if two => (Err(30), Ok(2)),
                _ => (Ok(1), Ok(1)),
            };
            assert_eq!(length(&[byte]), alone, "{byte:02X}");
            assert_eq!(length(&[byte, 0x27]), followed, "{byte:02X}");
            assert_eq!(length(&[byte, 0x27, 0x01]), followed, "{byte:02X}");
        }
        assert_eq!(length(&[]), Err(30));
    }

    #[test]
    fn a_second_byte_stays_under_80() {
        for byte in 0..=255 {
            let wanted = match byte {
                0x00..=0x7F => Ok(2),
                0x80.. => Err(30),
            };
            assert_eq!(length(&[0x5F, byte]), wanted, "{byte:02X}");
            assert_eq!(length(&[0x5A, byte]), Ok(1), "{byte:02X}");
        }
    }

    #[test]
    fn lists() {
        let tags: Vec<&[u8]> = vec![&[0x82], &[0x9F, 0x27], &[0x95]];
        assert_eq!(list(&[0x82, 0x9F, 0x27, 0x95]), Ok(tags));
        assert_eq!(list(&[]), Ok(vec![]));
        assert_eq!(list(&[0x82, 0x9F]), Err(30));
        assert_eq!(list(&[0x82, 0x9F, 0x27, 0x00]), Err(30));
    }
}
