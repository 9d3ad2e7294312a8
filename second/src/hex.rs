//! Bytes as upper-case hexadecimal.

const DIGITS: &[u8; 16] = b"0123456789ABCDEF";

/// Two digits a byte, nothing between them.
pub fn written(bytes: &[u8]) -> String {
    bytes
        .iter()
        .flat_map(|&byte| [byte >> 4, byte & 0x0F])
        .map(|digit| char::from(DIGITS[usize::from(digit)]))
        .collect()
}

/// The bytes of what `written` gives; None for any other text. Lower case is
/// refused so that a byte string has one written form only.
pub fn read(digits: &[u8]) -> Option<Vec<u8>> {
    digits.chunks(2).map(byte).collect()
}

/// As `read`, with one space between bytes, the form of the vectors file.
pub fn read_spaced(text: &str) -> Option<Vec<u8>> {
    text.split(' ').map(|two| byte(two.as_bytes())).collect()
}

fn byte(digits: &[u8]) -> Option<u8> {
    match digits {
        [high, low] => Some(value(*high)? << 4 | value(*low)?),
        _ => None,
    }
}

fn value(digit: u8) -> Option<u8> {
    let place = DIGITS.iter().position(|&known| known == digit)?;
    u8::try_from(place).ok()
}

#[cfg(test)]
mod tests {
    use super::{read, read_spaced, written};

    #[test]
    fn every_byte_comes_back() {
        let bytes: Vec<u8> = (0..=255).collect();
        assert_eq!(read(written(&bytes).as_bytes()), Some(bytes));
        assert_eq!(written(&[0x00, 0x9A, 0xFF]), "009AFF");
    }

    #[test]
    fn other_text_is_refused() {
        for text in ["1", "123", "ab", "1g", "0x", " 1", "12 34"] {
            assert_eq!(read(text.as_bytes()), None, "{text}");
        }
        for text in ["", "1", "1234", "12  34", "12 34 ", "ab"] {
            assert_eq!(read_spaced(text), None, "{text}");
        }
        assert_eq!(read_spaced("12 34"), Some(vec![0x12, 0x34]));
    }
}
