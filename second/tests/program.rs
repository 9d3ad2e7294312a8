//! The program itself: its five uses, and the stored scripts through them.

use second::replay;
use second::script::shown;
use second::vectors::Vectors;
use std::collections::BTreeMap;
use std::io::{Read, Write};
use std::path::Path;
use std::process::{Command, Output, Stdio};

const VECTORS: &str = concat!(env!("CARGO_MANIFEST_DIR"), "/../vectors");

const OPN: [u8; 7] = [0x16, 0x4F, 0x50, 0x4E, 0x17, 0xA8, 0xA9];
const OPENED: [u8; 11] = [
    0x06, 0x16, 0x4F, 0x50, 0x4E, 0x30, 0x30, 0x30, 0x17, 0x77, 0x5E,
];

fn run(arguments: &[&str], input: &[u8]) -> Output {
    let mut program = Command::new(env!("CARGO_BIN_EXE_second"))
        .args(arguments)
        .stdin(Stdio::piped())
        .stdout(Stdio::piped())
        .stderr(Stdio::piped())
        .spawn()
        .expect("the program starts");
    let mut stdin = program.stdin.take().expect("its input is a pipe");
    let input = input.to_vec();
    let writer = std::thread::spawn(move || stdin.write_all(&input));
    let output = program.wait_with_output().expect("the program ends");
    // A program that never reads its input closes the pipe early: no fault.
    drop(writer.join().expect("the writer ends"));
    output
}

fn stored_script() -> String {
    let output = run(&["script", VECTORS], b"");
    assert_eq!(output.status.code(), Some(0));
    String::from_utf8(output.stdout).expect("the script is text")
}

fn log_of(script: &str) -> String {
    let output = run(&["samples"], script.as_bytes());
    String::from_utf8(output.stdout).expect("the log is text")
}

fn vectors() -> Vectors {
    Vectors::read(Path::new(VECTORS)).expect("the vectors files are well formed")
}

#[test]
fn samples_answers_the_script_on_its_input() {
    let output = run(&["samples"], b"# OPN\nW 8 4F504E\n\nO 9F270140\n");
    assert_eq!(output.status.code(), Some(0));
    let log = b"# OPN\n0 7 164F504E17A8A907\nbad line\n0 2 3 4\n";
    assert_eq!(output.stdout, log);
}

#[test]
fn other_uses_are_refused() {
    for arguments in [
        &[][..],
        &["script"],
        &["other"],
        &["samples", "more"],
        &["line", "more"],
        &["replay", "more"],
        &["replay-script"],
    ] {
        let output = run(arguments, b"");
        assert_eq!(output.status.code(), Some(2), "{arguments:?}");
        assert!(output.stdout.is_empty(), "{arguments:?}");
        assert!(output.stderr.starts_with(b"usage: "), "{arguments:?}");
    }
}

/// Neither is one of the files by itself.
#[test]
fn a_vectors_folder_that_is_not_there_is_a_failure() {
    let file = format!("{VECTORS}/packets.txt");
    for folder in ["no such folder", &file] {
        let output = run(&["script", folder], b"");
        assert_eq!(output.status.code(), Some(1), "{folder}");
        assert!(output.stdout.is_empty(), "{folder}");
        assert!(output.stderr.starts_with(b"second: "), "{folder}");
    }
}

/// The scope paper, section Sample line traffic.
#[test]
fn line_answers_opn_and_ends_with_its_input() {
    let output = run(&["line"], &OPN);
    assert_eq!(output.status.code(), Some(0));
    assert_eq!(output.stdout, OPENED);
    assert!(output.stderr.is_empty());
    assert!(run(&["line"], b"").stdout.is_empty());
    assert!(run(&["line"], &OPN[..6]).stdout.is_empty());
}

/// The input stays open meanwhile: a program that waits for more of it before it
/// replies would never be done here.
#[test]
fn line_answers_before_its_input_ends() {
    let mut program = Command::new(env!("CARGO_BIN_EXE_second"))
        .arg("line")
        .stdin(Stdio::piped())
        .stdout(Stdio::piped())
        .spawn()
        .expect("the program starts");
    let mut stdin = program.stdin.take().expect("its input is a pipe");
    let mut stdout = program.stdout.take().expect("its output is a pipe");
    for (sent, replied) in [
        (&OPN[..], &OPENED[..]),
        (&[0x15], &OPENED[1..]),
        (&[0x16, 0x17, 0x00, 0x00], &[0x15]),
        (&[0x18], &[0x04]),
    ] {
        stdin.write_all(sent).expect("the program reads");
        let mut reply = vec![0; replied.len()];
        stdout.read_exact(&mut reply).expect("the program replies");
        assert_eq!(reply, replied);
    }
    drop(stdin);
    let mut rest = Vec::new();
    stdout.read_to_end(&mut rest).expect("its output ends");
    assert!(rest.is_empty());
    assert!(program.wait().expect("the program ends").success());
}

/// The state is shown by other tests.
#[test]
fn replay_makes_the_calls_on_its_input() {
    let script = [b"B\x00\x07", &OPN[..], b"TR"].concat();
    let output = run(&["replay"], &script);
    assert_eq!(output.status.code(), Some(0));
    let lines = b"B 0 7 06164F504E30303017775E\nT 0\nR 0\nreception idle 0 0\nheld - 0\n";
    assert!(output.stdout.starts_with(lines));
    assert!(output.stdout.ends_with(b"0000\n"));
    assert!(output.stderr.is_empty());
}

/// A broken script is no failure: the log tells.
#[test]
fn replay_of_a_broken_script() {
    let output = run(&["replay"], b"X");
    assert_eq!(output.status.code(), Some(0));
    assert!(output
        .stdout
        .starts_with(b"bad script\nreception idle 0 0\n"));
}

#[test]
fn the_stored_replay_script() {
    let script = run(&["replay-script", VECTORS], b"");
    assert_eq!(script.status.code(), Some(0));
    assert_eq!(
        replay::stored::script(&vectors()),
        Ok(script.stdout.clone())
    );
    let log = run(&["replay"], &script.stdout);
    assert_eq!(log.status.code(), Some(0));
    assert!(log.stdout == replay::run(&script.stdout));
}

/// Every printed or computed packet under its own name, and all eight packets
/// of the exchanges.
#[test]
fn the_stored_script_shows_every_packet() {
    let script = stored_script();
    let mut steps = 0;
    for entry in vectors().packets {
        let id = entry.text("id").expect("an entry has an id");
        match entry.text("kind").expect("a packet's entry has a kind") {
            "packet" | "derived" => assert!(script.contains(&format!("# {id}\nR ")), "{id}"),
            "exchange" => steps += script.matches(&format!("# {id} step ")).count(),
            _ => assert!(!script.contains(&format!("# {id}\n")), "{id}"),
        }
    }
    assert_eq!(steps, 8);
}

/// Every message under its own name, with its calls or with the name of the one
/// that has the same bytes; its bytes are read in any case.
#[test]
fn the_stored_script_shows_every_message() {
    let script = stored_script();
    let mut shown_as = [0, 0];
    for entry in vectors().messages {
        let id = entry.text("id").expect("an entry has an id");
        let response = u8::from(entry.response().expect("who sends it"));
        let printed = entry.bytes("hex").expect("its bytes");
        let repaired = entry.bytes("repaired_hex").expect("bytes, if any");
        for (name, message) in [
            (id.to_string(), printed),
            (format!("{id} repaired"), repaired),
        ] {
            let Some(message) = message else { continue };
            let own = script.contains(&format!("\n# {name}\nM "));
            assert!(
                own || script.contains(&format!("\n# {name}, as M-")),
                "{name}"
            );
            let end = format!(" {response} {}\n", shown(&message));
            assert!(script.contains(&end), "{name}");
            shown_as[usize::from(own)] += 1;
        }
    }
    assert_eq!(shown_as, [97, 215 + 44 - 97]);
}

#[test]
fn the_stored_script_shows_every_object() {
    let script = stored_script();
    let mut lists = 0;
    for entry in vectors().objects {
        let id = entry.text("id").expect("an entry has an id");
        match entry.text("kind").expect("an object's entry has a kind") {
            "taglist" => {
                assert!(script.contains(&format!("\n# {id}\nT ")), "{id}");
                let picked = format!("\n# {id} picked from every list\nP ");
                assert!(script.contains(&picked), "{id}");
                lists += 1;
            }
            _ => assert!(script.contains(&format!("\n# {id}\nO ")), "{id}"),
        }
    }
    assert_eq!(lists, 23);
}

/// How often the stored script comes to each refusal. A refusal that it never
/// shows, or a comment without a call, would leave a rule untried. Of those that
/// the calls can give only 33 is missing: no field of a script is long enough.
#[test]
fn the_stored_script_shows_every_refusal() {
    let script = stored_script();
    assert!(script.len() < 400_000, "{} bytes", script.len());
    let log = log_of(&script);
    assert_eq!(log.lines().count(), script.lines().count());
    let mut counts = BTreeMap::new();
    for (call, line) in script.lines().zip(log.lines()) {
        if !line.starts_with('#') {
            let refusal = line.split(' ').next().unwrap_or(line);
            let call = call.chars().next().filter(|_| refusal != "bad");
            *counts.entry((call, refusal)).or_insert(0) += 1;
        }
    }
    for (call, refusals) in [
        ('W', &["0", "1", "10", "11"][..]),
        ('R', &["0", "1", "10", "11", "12", "13"]),
        ('M', &["0", "1", "11", "20", "21"]),
        ('L', &["0", "1", "20", "21", "22", "23"]),
        ('F', &["0", "21", "24"]),
        ('O', &["0", "30", "31", "32"]),
        ('T', &["0", "1", "30"]),
        ('P', &["0", "1", "30", "31", "32"]),
    ] {
        let of_call = counts.keys().filter(|(one, _)| *one == Some(call));
        let mut given: Vec<&str> = of_call.map(|(_, refusal)| *refusal).collect();
        given.sort_by_key(|refusal| refusal.parse::<u8>().expect("a number"));
        assert_eq!(given, refusals, "{call}");
    }
    let bad = script.lines().filter(|line| line.starts_with("# bad line"));
    assert_eq!(counts[&(None, "bad")], bad.count());
}

/// Calls named with the refusals in the order of the scope paper, section
/// Numbered refusals of calls, must come to the first refusal named.
#[test]
fn the_stored_script_shows_the_order_of_refusals() {
    let script = stored_script();
    let log = log_of(&script);
    let lines: Vec<(&str, &str)> = script.lines().zip(log.lines()).collect();
    let mut shown = 0;
    for pair in lines.windows(2) {
        let (name, (call, answer)) = (pair[0].0, pair[1]);
        let [_, first, "before", next, ..] = name.split([' ', ',']).collect::<Vec<_>>()[..] else {
            continue;
        };
        if [first, next].iter().all(|one| one.parse::<u8>().is_ok()) {
            let rest = if call.starts_with('O') {
                "0 0 0"
            } else {
                "0 -"
            };
            assert_eq!(answer, format!("{first} {rest}"), "{name}");
            shown += 1;
        }
    }
    assert_eq!(shown, 36);
}
