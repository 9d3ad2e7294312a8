//! Parameter lists.
//!
//! The scope paper, section Blocks and parameters: a parameter is its number,
//! the length of its data, both in two bytes with the high one first, and the
//! data.

use crate::pieces;

/// The scope paper, section Numbered refusals of calls: a header or data that
/// goes past the block or list it stands in.
pub const PAST_THE_END: u8 = 21;

#[derive(Debug, PartialEq)]
pub struct Parameter<'a> {
    pub number: u16,
    pub data: &'a [u8],
    /// Header and data as they stand in the list.
    pub whole: &'a [u8],
}

/// The parameters that these bytes are, nothing left over.
pub fn list(bytes: &[u8]) -> Result<Vec<Parameter<'_>>, u8> {
    pieces::all(bytes, |rest| first(rest).ok_or(PAST_THE_END))
}

fn first(bytes: &[u8]) -> Option<(Parameter<'_>, &[u8])> {
    let (number, after) = two_bytes(bytes)?;
    let (length, after) = two_bytes(after)?;
    let (data, rest) = after.split_at_checked(usize::from(length))?;
    let whole = &bytes[..bytes.len() - rest.len()];
    let parameter = Parameter {
        number,
        data,
        whole,
    };
    Some((parameter, rest))
}

fn two_bytes(bytes: &[u8]) -> Option<(u16, &[u8])> {
    let (two, rest) = bytes.split_first_chunk()?;
    Some((u16::from_be_bytes(*two), rest))
}

#[cfg(test)]
mod tests {
    use super::{list, Parameter};

    #[test]
    fn number_length_and_data() {
        let bytes = [0x80, 0x4D, 0, 2, 0x30, 0x32, 0, 6, 0, 0];
        let first = Parameter {
            number: 0x804D,
            data: &bytes[4..6],
            whole: &bytes[..6],
        };
        let second = Parameter {
            number: 6,
            data: &[],
            whole: &bytes[6..],
        };
        assert_eq!(list(&bytes), Ok(vec![first, second]));
        assert_eq!(list(&[]), Ok(vec![]));
    }

    #[test]
    fn the_length_takes_both_its_bytes() {
        for length in [0x00FF, 0x0100, 0x0102, 0xFFFF_u16] {
            let data = vec![7; usize::from(length)];
            let bytes = [&[0, 1], &length.to_be_bytes()[..], &data].concat();
            let parameters = list(&bytes).expect("one parameter");
            assert_eq!(parameters.len(), 1, "{length}");
            assert_eq!(parameters[0].data, data, "{length}");
            assert_eq!(list(&bytes[..bytes.len() - 1]), Err(21), "{length}");
        }
    }

    #[test]
    fn a_list_that_breaks_off() {
        let bytes = [0, 1, 0, 1, 9, 0, 2, 0, 2, 8, 8];
        for length in 0..=bytes.len() {
            let count = list(&bytes[..length]).map(|parameters| parameters.len());
            let wanted = match length {
                0 => Ok(0),
                5 => Ok(1),
                11 => Ok(2),
                _ => Err(21),
            };
            assert_eq!(count, wanted, "cut to {length}");
        }
    }
}
