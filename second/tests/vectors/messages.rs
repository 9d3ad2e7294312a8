//! The messages file.

use super::{bytes, counts, text, vectors};
use second::answer::{give, Answer, Outcome};
use second::vectors::Entry;
use second::{by_hand, message};
use std::collections::BTreeMap;

/// One message of the file, as printed or as repaired, and what the entry's
/// fields say of it.
struct Example {
    name: String,
    repaired: bool,
    response: bool,
    message: Vec<u8>,
    blocks: Blocks,
    parameters: Option<Vec<(u16, usize)>>,
}

#[derive(PartialEq)]
enum Blocks {
    /// The lengths that the blocks tell, none for a message without blocks.
    Whole(Vec<usize>),
    Broken,
}

fn examples() -> Vec<Example> {
    vectors()
        .messages
        .iter()
        .flat_map(|entry| [Some(printed(entry)), repaired(entry)])
        .flatten()
        .collect()
}

fn printed(entry: &Entry) -> Example {
    let parameters = match text(entry, "abecs_params") {
        "yes" => text(entry, "params"),
        "-" => "",
        other => other,
    };
    Example {
        name: text(entry, "id").to_string(),
        repaired: false,
        response: entry.response().expect("who sends it"),
        message: bytes(entry, "hex").expect("the bytes of a message"),
        blocks: blocks(text(entry, "blocks")),
        parameters: parameters_of(parameters),
    }
}

fn repaired(entry: &Entry) -> Option<Example> {
    Some(Example {
        name: format!("{} repaired", text(entry, "id")),
        repaired: true,
        response: entry.response().expect("who sends it"),
        message: bytes(entry, "repaired_hex")?,
        blocks: blocks(text(entry, "repaired_blocks")),
        parameters: parameters_of(text(entry, "repaired_params")),
    })
}

fn blocks(field: &str) -> Blocks {
    match field.split_once(' ') {
        Some(("no", _)) => Blocks::Broken,
        Some(("none", _)) => Blocks::Whole(Vec::new()),
        Some(("yes:", lengths)) => {
            let length = |text: &str| text.parse().expect("a block's length");
            Blocks::Whole(lengths.split(' ').map(length).collect())
        }
        _ => panic!("unknown blocks {field}"),
    }
}

/// Numbers and lengths of the parameters, None where the entry says that what
/// the blocks hold is no parameters.
fn parameters_of(field: &str) -> Option<Vec<(u16, usize)>> {
    let parameter = |text: &str| {
        let (number, length) = text.split_once(':').expect("number and length");
        let number = u16::from_str_radix(number, 16).expect("a number");
        (number, length.parse().expect("a length"))
    };
    match field {
        "no" => None,
        _ => Some(field.split_whitespace().map(parameter).collect()),
    }
}

/// The refusal that must come, or None for a message that reads.
///
/// Where the entry finds the blocks broken, or one of no bytes (the scope paper,
/// section Blocks and parameters, has lengths from 001), it is 20. Where the
/// blocks are whole and hold no parameters it is 21: the older commands fill
/// their blocks with fields of fixed places, and all that the reader can find
/// wrong with those is a parameter's header or data that goes past the block.
fn refusal(example: &Example) -> Option<u8> {
    match &example.blocks {
        Blocks::Broken => Some(20),
        Blocks::Whole(lengths) if lengths.contains(&0) => Some(20),
        Blocks::Whole(_) if example.parameters.is_none() => Some(21),
        Blocks::Whole(_) => None,
    }
}

fn reading() -> Vec<Example> {
    let mut examples = examples();
    examples.retain(|example| refusal(example).is_none());
    examples
}

/// The hand-written call too, through a buffer that is exactly long enough.
fn assert_by_hand(wanted: &Outcome, name: &str, call: impl Fn(&mut [u8]) -> Answer) {
    let room = wanted.as_ref().map_or(4, Vec::len);
    let mut buffers = [vec![0xEE; room], vec![0xEE; room]];
    let [got, expected] = &mut buffers;
    assert_eq!(call(got), give(wanted.clone(), expected), "{name}");
    assert_eq!(got, expected, "{name}");
}

fn read(example: &Example) -> Outcome {
    let outcome = message::read(&example.message, example.response);
    assert_by_hand(&outcome, &example.name, |out| {
        by_hand::message::read(&example.message, example.response, out)
    });
    outcome
}

fn head(example: &Example) -> &[u8] {
    &example.message[..message::head_length(example.response)]
}

#[test]
fn no_entry_is_missed() {
    let entries = vectors().messages;
    let of_field = |key: &'static str| {
        let first = |entry| text(entry, key).split([' ', ':']).next().unwrap_or("");
        counts(entries.iter().map(first))
    };
    assert_eq!(of_field("status"), [("OK", 166), ("DAMAGED", 49)].into());
    assert_eq!(of_field("dir"), [("PP", 109), ("SPE", 106)].into());
    let blocks = [("no", 48), ("none", 53), ("yes", 114)];
    assert_eq!(of_field("blocks"), blocks.into());
    let parameters = [("-", 53), ("no", 108), ("yes", 54)];
    assert_eq!(of_field("abecs_params"), parameters.into());
    let repaired = examples().iter().filter(|one| one.repaired).count();
    assert_eq!(repaired, 44);
}

/// Every entry is whole or damaged, and only a damaged one is repaired; five
/// damaged ones have no sure repair.
#[test]
fn what_is_damaged_is_repaired_where_that_is_sure() {
    let mut kinds = [0; 3];
    for entry in vectors().messages {
        let whole = text(&entry, "status") == "OK";
        let kind = match (whole, repaired(&entry).is_some()) {
            (true, false) => 0,
            (false, true) => 1,
            (false, false) => 2,
            (true, true) => panic!("{}: repaired for nothing", text(&entry, "id")),
        };
        assert_eq!(kind == 2, entry.field("repaired_basis") == Some("none"));
        kinds[kind] += 1;
    }
    assert_eq!(kinds, [166, 44, 5]);
}

#[test]
fn the_fields_of_every_message_agree_with_its_bytes() {
    let mut encrypted = 0;
    for entry in vectors().messages {
        let name = text(&entry, "id");
        for (bytes_key, count_key) in [("hex", "bytes"), ("repaired_hex", "repaired_bytes")] {
            let Some(message) = bytes(&entry, bytes_key) else {
                continue;
            };
            assert_eq!(text(&entry, count_key), message.len().to_string(), "{name}");
            if text(&entry, "name") == "(12h)" {
                assert!(message.starts_with(&[0x12]), "{name}");
                encrypted += 1;
            } else {
                let command = text(&entry, "name").as_bytes();
                assert!(message.starts_with(command), "{name}");
            }
        }
    }
    assert_eq!(encrypted, 2);
}

/// The lengths named in the entry stand at their places and come to the whole
/// message. Of those not whole, the reader's answer is all there is to check.
#[test]
fn every_whole_block_stands_where_its_entry_says() {
    let mut whole = 0;
    for example in examples() {
        let Blocks::Whole(lengths) = &example.blocks else {
            continue;
        };
        let mut rest = &example.message[head(&example).len()..];
        for length in lengths {
            let digits = format!("{length:03}");
            rest = rest
                .strip_prefix(digits.as_bytes())
                .and_then(|after| after.get(*length..))
                .unwrap_or_else(|| panic!("{}: no block of {digits}", example.name));
        }
        assert!(rest.is_empty(), "{}: more than blocks", example.name);
        whole += 1;
    }
    assert_eq!(whole, 53 + 114 + 44);
}

#[test]
fn every_message_reads_or_is_refused_as_its_entry_says() {
    let mut answers = BTreeMap::new();
    for example in examples() {
        let wanted = refusal(&example);
        assert_eq!(read(&example).err(), wanted, "{}", example.name);
        *answers.entry((example.repaired, wanted)).or_insert(0) += 1;
    }
    let printed = [(None, 53 + 54), (Some(20), 46 + 2 + 1), (Some(21), 57 + 2)];
    let repaired = [(None, 15), (Some(21), 29)];
    let printed = printed.map(|(refusal, count)| ((false, refusal), count));
    let repaired = repaired.map(|(refusal, count)| ((true, refusal), count));
    let all = printed.into_iter().chain(repaired);
    assert_eq!(answers, all.collect());
}

/// What is read is what the blocks hold, and its headers are those named.
#[test]
fn every_list_holds_the_parameters_that_its_entry_names() {
    let mut lists = 0;
    let mut headers = 0;
    for example in reading() {
        let list = read(&example).expect("a message that reads");
        let mut rest = &list[..];
        for (number, length) in example.parameters.iter().flatten() {
            let length_bytes = u16::try_from(*length).expect("a length").to_be_bytes();
            let header = [number.to_be_bytes(), length_bytes].concat();
            rest = rest
                .strip_prefix(&header[..])
                .and_then(|after| after.get(*length..))
                .unwrap_or_else(|| panic!("{}: no {header:02X?}", example.name));
            headers += 1;
        }
        assert!(rest.is_empty(), "{}: more than parameters", example.name);
        lists += 1;
    }
    assert_eq!((lists, headers), (122, 236));
}

/// Every parameter by its number and its turn; one turn more is refused, and so
/// is turn 0.
#[test]
fn every_parameter_is_found() {
    let mut found = 0;
    for example in reading() {
        let list = read(&example).expect("a message that reads");
        let mut turns = BTreeMap::new();
        let mut place = 0;
        for (number, length) in example.parameters.iter().flatten() {
            let turn = turns.entry(*number).or_insert(0);
            *turn += 1;
            let data = list[place + 4..place + 4 + length].to_vec();
            let outcome = message::find(&list, *number, *turn);
            assert_eq!(outcome, Ok(data), "{}: {number:04X}", example.name);
            place += 4 + length;
            found += 1;
        }
        for (number, turns) in turns {
            assert_eq!(message::find(&list, number, turns + 1), Err(24));
            assert_eq!(message::find(&list, number, 0), Err(24));
        }
    }
    assert_eq!(found, 236);
}

/// A message comes out again as it was where its blocks are filled as the writer
/// fills them. All lists here fit one block, so those are the messages with at
/// most one; the seven pieces of a media file come in two, and are joined.
#[test]
fn every_message_that_reads_is_written_back() {
    let mut same = 0;
    let mut joined = 0;
    for example in reading() {
        let list = read(&example).expect("a message that reads");
        let one_block = match list.len() {
            0 => head(&example).to_vec(),
            length => [head(&example), format!("{length:03}").as_bytes(), &list].concat(),
        };
        let outcome = message::write(head(&example), example.response, &list);
        assert_by_hand(&outcome, &example.name, |out| {
            by_hand::message::write(head(&example), example.response, &list, out)
        });
        assert_eq!(outcome, Ok(one_block.clone()), "{}", example.name);
        assert_eq!(message::read(&one_block, example.response), Ok(list));
        match one_block == example.message {
            true => same += 1,
            false => joined += 1,
        }
        let filled = matches!(&example.blocks, Blocks::Whole(lengths) if lengths.len() <= 1);
        assert_eq!(one_block == example.message, filled, "{}", example.name);
    }
    assert_eq!((same, joined), (115, 7));
}

/// The caller says which a message is. Taken for the other one, none reads: a
/// status is not the length of what follows it, nor a length a status with
/// another length behind it.
#[test]
fn no_message_reads_as_the_other_kind() {
    for example in reading() {
        let outcome = message::read(&example.message, !example.response);
        assert_eq!(outcome, Err(20), "{}", example.name);
    }
}
