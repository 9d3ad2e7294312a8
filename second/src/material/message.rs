//! What matters to the message calls.

use crate::message::{framed, head_length, DIGITS, LARGEST_BLOCK};
use crate::random::Random;

/// The values that decide how a message reads: digits and capitals at both ends
/// of their ranges, their neighbours, and the bytes of small headers.
pub const TELLING: [u8; 12] = *b"019AZ/:@[\x00\x04\xFF";

/// Few numbers, so that one comes up several times in a list, and some that
/// differ in one of their two bytes only.
pub const NUMBERS: [u16; 6] = [0x0000, 0x0006, 0x0106, 0x8006, 0x8040, 0xFFFF];

/// A parameter's header, and the least that a block holds.
const LEAST_PARAMETER: usize = 4;

/// A parameter as it stands in a list. The data must not be longer than two
/// bytes can tell.
pub fn parameter_of(number: u16, data: &[u8]) -> Vec<u8> {
    let length = u16::try_from(data.len()).expect("data of a parameter");
    [&number.to_be_bytes(), &length.to_be_bytes(), data].concat()
}

/// Parameters of four kinds of list: some small, very many small, a few about as
/// long as a block can hold, and a few of any length up to that.
pub fn random_parameters(random: &mut Random) -> Vec<Vec<u8>> {
    let (count, least, most) = match random.below(4) {
        0 => (random.below(6), 0, 16),
        1 => (random.below(400), 0, 8),
        2 => (random.below(5), 990, 1000),
        _ => (random.below(8), 0, 1000),
    };
    (0..count)
        .map(|_| {
            let length = least + random.below(most - least + 1);
            random_parameter(random, length)
        })
        .collect()
}

fn random_parameter(random: &mut Random, data: usize) -> Vec<u8> {
    let number = match random.below(8) {
        0 => (random.number() % 0x10000) as u16,
        _ => random.pick(&NUMBERS),
    };
    let data = super::random_bytes(random, data, &TELLING);
    parameter_of(number, &data)
}

/// A head, mostly a good one of the kind asked for.
pub fn random_head(random: &mut Random, response: bool) -> Vec<u8> {
    let mut head = random.pick(&[b"CEX000", b"AZA999", b"MLR190"]).to_vec();
    head.truncate(head_length(response));
    match random.below(6) {
        0 => super::random_damage(random, &head, &TELLING),
        _ => head,
    }
}

/// The parameters in blocks, as another program might have put them: each goes
/// to the last block or opens the next by chance.
pub fn random_blocks(random: &mut Random, parameters: &[Vec<u8>]) -> Vec<Vec<u8>> {
    let mut blocks: Vec<Vec<u8>> = Vec::new();
    let chance = 1 + random.below(50);
    for parameter in parameters {
        match blocks.last_mut() {
            Some(block)
                if block.len() + parameter.len() <= LARGEST_BLOCK && random.below(chance) > 0 =>
            {
                block.extend(parameter);
            }
            _ => blocks.push(parameter.clone()),
        }
    }
    blocks
}

/// A message of exactly that size. It reads wherever whole blocks can make up
/// the size and the size is not over the limit.
pub fn random_message(random: &mut Random, size: usize, response: bool) -> Vec<u8> {
    let mut head = b"CEX000"[..head_length(response)].to_vec();
    let Some(rest) = size.checked_sub(head.len()) else {
        head.truncate(size);
        return head;
    };
    if (1..DIGITS + LEAST_PARAMETER).contains(&rest) {
        head.extend(super::random_bytes(random, rest, &TELLING));
        return head;
    }
    let least = DIGITS + LEAST_PARAMETER;
    let blocks: Vec<Vec<u8>> = random_sizes(random, rest, least, DIGITS + LARGEST_BLOCK)
        .iter()
        .map(|size| random_block(random, size - DIGITS))
        .collect();
    framed(&head, &blocks)
}

fn random_block(random: &mut Random, size: usize) -> Vec<u8> {
    let most = random.pick(&[16, 100, LARGEST_BLOCK]);
    random_sizes(random, size, LEAST_PARAMETER, most)
        .iter()
        .flat_map(|size| random_parameter(random, size - LEAST_PARAMETER))
        .collect()
}

/// Sizes that come to the total, each from the least to the most. The total is 0
/// or at least the least, and the most at least three times that.
fn random_sizes(random: &mut Random, mut total: usize, least: usize, most: usize) -> Vec<usize> {
    let mut sizes = Vec::new();
    while total > 0 {
        let mut size = least + random.below(most.min(total) - least + 1);
        if (1..least).contains(&(total - size)) {
            size = match total <= most {
                true => total,
                false => size - least,
            };
        }
        sizes.push(size);
        total -= size;
    }
    sizes
}

#[cfg(test)]
mod tests {
    use super::{random_message, random_sizes};
    use crate::message;
    use crate::random::Random;

    #[test]
    fn sizes_come_to_their_total() {
        let mut random = Random::new(1);
        for (least, most) in [(4, 16), (7, 1002)] {
            for total in (least..3000).chain([0]) {
                let sizes = random_sizes(&mut random, total, least, most);
                assert_eq!(sizes.iter().sum::<usize>(), total);
                assert!(sizes.iter().all(|size| (least..=most).contains(size)));
            }
        }
    }

    #[test]
    fn messages_have_their_size_and_mostly_read() {
        let mut random = Random::new(1);
        for (response, head) in [(false, 3), (true, 6)] {
            for size in 0..=2100 {
                let message = random_message(&mut random, size, response);
                assert_eq!(message.len(), size);
                let refusal = message::read(&message, response).err();
                match size {
                    2049.. => assert_eq!(refusal, Some(11), "{size}"),
                    _ if size == head || size >= head + 7 => assert_eq!(refusal, None, "{size}"),
                    _ => assert_eq!(refusal, Some(20), "{size}"),
                }
            }
        }
    }
}
