//! The replay of device calls: the exact form of its log, the random scripts, and
//! what the stored one shows.

mod cuts;
mod form;
mod load;
mod states;
mod stored;

use second::replay::run;

fn log(script: &[u8]) -> String {
    String::from_utf8(run(script)).expect("the log is text")
}

/// The call with a piece, as a script has it.
fn piece(bytes: &[u8]) -> Vec<u8> {
    let [high, low] = u16::try_from(bytes.len()).expect("short").to_be_bytes();
    [&[b'B', high, low], bytes].concat()
}

/// The last lines of a log: all 100 versions, of which only these are not ten "0"
/// bytes, and the reception store, zero behind these digits.
fn last_lines(versions: &[(usize, &str)], store: &str) -> String {
    let mut lines: Vec<String> = (0..100)
        .map(|network| format!("version {network:02} 30303030303030303030\n"))
        .collect();
    for (network, version) in versions {
        lines[*network] = format!("version {network:02} {version}\n");
    }
    let zeros = "0".repeat(4096 - store.len());
    lines.concat() + "store " + store + &zeros + "\n"
}

/// The log must be these lines, and the last ones.
fn assert_log(script: &[u8], lines: &str, versions: &[(usize, &str)], store: &str) {
    assert_eq!(
        log(script),
        lines.to_string() + &last_lines(versions, store)
    );
}
