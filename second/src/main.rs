//! `second samples` runs a samples script from standard input; `second script
//! VECTORS_DIR` makes the stored script from the folder of vectors files; `second
//! line` is the device's end of a line; `second replay` runs a script of device
//! calls from standard input, and `second replay-script VECTORS_DIR` makes the stored
//! one.

#![deny(warnings)]

use second::vectors::Vectors;
use second::{line, replay, script, stored};
use std::io::{self, Read, Write};
use std::path::Path;
use std::process::ExitCode;

const USAGE: &str = "usage: second samples < SCRIPT > LOG
       second script VECTORS_DIR > SCRIPT
       second line < TRAFFIC > REPLIES
       second replay < SCRIPT > LOG
       second replay-script VECTORS_DIR > SCRIPT";

fn main() -> ExitCode {
    let arguments: Vec<String> = std::env::args().skip(1).collect();
    let arguments: Vec<&str> = arguments.iter().map(String::as_str).collect();
    let output = match arguments[..] {
        ["samples"] => input().map(|script| script::run(&script)),
        ["script", folder] => stored_script(folder),
        ["line"] => on_the_line(),
        ["replay"] => input().map(|script| replay::run(&script)),
        ["replay-script", folder] => replay_script(folder),
        _ => {
            eprintln!("{USAGE}");
            return ExitCode::from(2);
        }
    };
    match output.and_then(|bytes| io::stdout().write_all(&bytes).map_err(|e| e.to_string())) {
        Ok(()) => ExitCode::SUCCESS,
        Err(why) => {
            eprintln!("second: {why}");
            ExitCode::FAILURE
        }
    }
}

/// All of standard input.
fn input() -> Result<Vec<u8>, String> {
    let mut input = Vec::new();
    let taken = io::stdin().read_to_end(&mut input);
    taken.map_err(|e| e.to_string())?;
    Ok(input)
}

fn stored_script(folder: &str) -> Result<Vec<u8>, String> {
    let vectors = Vectors::read(Path::new(folder))?;
    Ok(stored::script(&vectors)?.into_bytes())
}

fn replay_script(folder: &str) -> Result<Vec<u8>, String> {
    replay::stored::script(&Vectors::read(Path::new(folder))?)
}

/// All replies have been written when it returns.
fn on_the_line() -> Result<Vec<u8>, String> {
    line::program().map_err(|e| e.to_string())?;
    Ok(Vec::new())
}
