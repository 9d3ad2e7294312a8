//! Numbers written in digits: lengths, counts, networks.

/// The number that these few digits tell; None where a byte is no digit.
pub fn number(digits: &[u8]) -> Option<usize> {
    digits.iter().try_fold(0, |number, digit| {
        let value = digit.is_ascii_digit().then(|| usize::from(digit - b'0'));
        Some(number * 10 + value?)
    })
}

#[cfg(test)]
mod tests {
    use super::number;

    #[test]
    fn every_number_of_three_digits() {
        for wanted in 0..=999 {
            let digits = format!("{wanted:03}");
            assert_eq!(number(digits.as_bytes()), Some(wanted));
        }
    }

    #[test]
    fn every_other_byte_in_every_place() {
        for place in 0..3 {
            for byte in (0..=255_u8).filter(|byte| !(0x30..=0x39).contains(byte)) {
                let mut digits = *b"123";
                digits[place] = byte;
                assert_eq!(number(&digits), None, "{digits:?}");
            }
        }
    }
}
