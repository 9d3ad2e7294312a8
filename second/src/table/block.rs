//! The block of a TLR, without the length field before it: how many records
//! there are, in two digits, and the records.

use super::record::{self, Record};
use crate::digits;

/// The digits of a block's count.
pub const COUNT: usize = 2;
/// The largest count that they tell.
pub const MOST_IN_A_BLOCK: usize = 99;

/// The records of a block, those that a load will skip included.
///
/// None for a bad block: the scope paper, section Commands, has one fault spoil
/// it as a whole. A block longer than a length field can tell is judged by the
/// same rules.
pub fn read_block(block: &[u8]) -> Option<Vec<Record>> {
    let (count, rest) = block.split_at_checked(COUNT)?;
    let count = digits::number(count)?;
    let records = record::list(rest)?;
    (count > 0 && count == records.len()).then_some(records)
}

#[cfg(test)]
mod tests {
    use super::read_block;
    use crate::material::table::{block_of, record_of};
    use crate::material::{every_byte, every_string};

    /// Two records, one of them with free bytes.
    const SMALL: &[u8] = b"02010103AZab008299  ";

    fn count(block: &[u8]) -> Option<usize> {
        read_block(block).map(|records| records.len())
    }

    /// Records of network 3 with these lengths, in one block.
    fn of_lengths(lengths: &[usize]) -> Vec<u8> {
        let record = |length: &usize| record_of(b'1', 3, 0, *length);
        let records: Vec<Vec<u8>> = lengths.iter().map(record).collect();
        block_of(&records)
    }

    #[test]
    fn records_come_in_order() {
        let records = read_block(SMALL).expect("a good block");
        let wholes: Vec<&[u8]> = records.iter().map(|one| &one.whole[..]).collect();
        assert_eq!(wholes, [&b"010103AZab"[..], b"008299  "]);
    }

    #[test]
    fn every_count_before_one_record() {
        every_string(2, &every_byte(), |digits| {
            let good = digits == b"01";
            let block = [digits, b"008103AZ"].concat();
            assert_eq!(count(&block), good.then_some(1), "{digits:?}");
        });
    }

    #[test]
    fn every_count_before_every_number_of_records() {
        for number in 0..=100 {
            let records = vec![record_of(b'1', 3, 0, 8); number].concat();
            for told in 0..=99 {
                let block = [format!("{told:02}").as_bytes(), &records].concat();
                let good = told == number && told > 0;
                assert_eq!(count(&block), good.then_some(number), "{told} {number}");
            }
        }
    }

    #[test]
    fn a_block_that_breaks_off() {
        for length in 0..SMALL.len() {
            assert_eq!(read_block(&SMALL[..length]), None, "cut to {length}");
        }
    }

    #[test]
    fn records_fill_the_block() {
        for more in 1..=8 {
            let block = [SMALL, &vec![b'0'; more]].concat();
            assert_eq!(read_block(&block), None, "{more} bytes more");
        }
    }

    /// A block stays good where the byte is free, a kind, a network's digit or an
    /// index byte, and is still one of those.
    #[test]
    fn every_byte_in_every_place_of_a_small_block() {
        for place in 0..SMALL.len() {
            for byte in (0..=255).filter(|byte| *byte != SMALL[place]) {
                let mut block = SMALL.to_vec();
                block[place] = byte;
                let good = match place {
                    5 | 10..=11 | 15 => true,
                    6..=7 | 16..=17 => (0x30..=0x39).contains(&byte),
                    8..=9 | 18..=19 => (0x20..=0x7E).contains(&byte),
                    _ => false,
                };
                assert_eq!(count(&block), good.then_some(2), "{place} {byte:02X}");
            }
        }
    }

    #[test]
    fn a_byte_more_or_less_in_every_place() {
        for place in 0..SMALL.len() {
            let mut block = SMALL.to_vec();
            block.remove(place);
            assert_eq!(read_block(&block), None, "{place} taken out");
            let mut block = SMALL.to_vec();
            block.insert(place, b'x');
            assert_eq!(read_block(&block), None, "x put in at {place}");
        }
    }

    #[test]
    fn lengths_at_their_limits() {
        for (lengths, wanted) in [
            (&[7][..], None),
            (&[8], Some(1)),
            (&[997], Some(1)),
            (&[998], None),
            (&[8, 7], None),
            (&[8, 989], Some(2)),
            (&[0, 8], None),
        ] {
            assert_eq!(count(&of_lengths(lengths)), wanted, "{lengths:?}");
        }
        assert_eq!(of_lengths(&[997]).len(), 999);
    }

    /// A length that tells more or less than the record has.
    #[test]
    fn lengths_that_do_not_meet_the_next_record() {
        for length in (0..=999).filter(|length| *length != 10) {
            let mut block = SMALL.to_vec();
            block[2..5].copy_from_slice(format!("{length:03}").as_bytes());
            assert_eq!(read_block(&block), None, "{length}");
        }
    }

    #[test]
    fn one_bad_record_spoils_the_block_wherever_it_stands() {
        let bad: [&[u8]; 6] = [
            b"007103A",
            b"00:103AZ",
            b"0081:3AZ",
            b"00810/AZ",
            b"008103\x1FZ",
            b"008103A\x7F",
        ];
        for (one, place) in bad
            .iter()
            .flat_map(|one| (0..3).map(move |place| (one, place)))
        {
            let mut records = vec![b"008103AZ".to_vec(); 3];
            assert_eq!(count(&block_of(&records)), Some(3));
            records[place] = one.to_vec();
            assert_eq!(read_block(&block_of(&records)), None, "{one:?} at {place}");
        }
    }

    /// What a load would skip is in the block all the same, and counts there.
    #[test]
    fn skipped_records_are_good_records() {
        for record in [
            &b"008003AZ"[..],
            b"008403AZ",
            b"008\x00\x30\x33AZ",
            b"008100AZ",
        ] {
            let block = block_of(&[record.to_vec()]);
            assert_eq!(count(&block), Some(1), "{record:?}");
        }
    }

    #[test]
    fn equal_records_are_all_there() {
        assert_eq!(count(&of_lengths(&[9; 99])), Some(99));
    }
}
