//! The proved program `line` behind a real terminal device, as a host's library
//! sees it: socat makes the terminal and starts the program. The replies must be the
//! second program's, for single bytes, bursts and pauses.

#![deny(warnings)]

use compare::program::proved;
use compare::seed;
use second::line::Line;
use second::material::traffic::{random_traffic, Loads};
use second::random::Random;
use std::fs::{self, File, OpenOptions};
use std::io::{Read, Write};
use std::path::{Path, PathBuf};
use std::process::{Child, Command, Stdio};
use std::sync::mpsc::{channel, Receiver};
use std::thread;
use std::time::{Duration, Instant};

/// Long enough for a busy machine; what comes sooner is not waited for.
const PATIENCE: Duration = Duration::from_secs(20);

/// socat, with the terminal's name and the program behind it. It ends with the test.
struct Terminal {
    socat: Child,
    name: PathBuf,
}

impl Drop for Terminal {
    fn drop(&mut self) {
        // It may have ended by itself, and then there is nothing to do.
        let _ = self.socat.kill();
        let _ = self.socat.wait();
        let _ = fs::remove_file(&self.name);
    }
}

impl Terminal {
    fn open() -> Self {
        let name = std::env::temp_dir().join(format!("abecs-line-{}", std::process::id()));
        let terminal = format!("PTY,link={},raw,echo=0,waitslave", name.display());
        let program = proved();
        let behind = format!("EXEC:{}", Path::new(program.get_program()).display());
        let socat = Command::new("socat").args([terminal, behind]).spawn();
        let terminal = Terminal {
            socat: socat.expect("socat starts"),
            name,
        };
        let begun = Instant::now();
        while !terminal.name.exists() {
            assert!(begun.elapsed() < PATIENCE, "socat makes no terminal");
            thread::sleep(Duration::from_millis(10));
        }
        terminal
    }
}

/// The bytes that come from the terminal, as they come.
fn listen(mut terminal: File) -> Receiver<u8> {
    let (give, get) = channel();
    thread::spawn(move || {
        let mut bytes = [0; 4096];
        while let Ok(n) = terminal.read(&mut bytes) {
            if n == 0 || bytes[..n].iter().any(|&b| give.send(b).is_err()) {
                return;
            }
        }
    });
    get
}

/// Hands over a piece and waits for the replies to it.
fn talk(host: &mut File, heard: &Receiver<u8>, second: &mut Line, piece: &[u8]) {
    let wanted = second.replies(piece).concat();
    host.write_all(piece).expect("the terminal takes it");
    let got: Vec<u8> = wanted
        .iter()
        .map_while(|_| heard.recv_timeout(PATIENCE).ok())
        .collect();
    assert_eq!(got, wanted, "the replies to {piece:02X?}");
}

fn is_installed() -> bool {
    let version = Command::new("socat")
        .arg("-V")
        .stdout(Stdio::null())
        .status();
    version.is_ok_and(|status| status.success())
}

#[test]
fn single_bytes_bursts_and_pauses() {
    if !is_installed() {
        eprintln!("socat is not installed: the terminal test is skipped");
        return;
    }
    let mut random = Random::new(seed::told("single_bytes_bursts_and_pauses"));
    let traffic = random_traffic(&mut random, 60_000, Loads::Short);
    let terminal = Terminal::open();
    let opened = OpenOptions::new()
        .read(true)
        .write(true)
        .open(&terminal.name);
    let mut host = opened.expect("the terminal opens");
    let heard = listen(host.try_clone().expect("it opens twice"));
    let mut second = Line::fresh();
    let mut rest = &traffic[..];
    while !rest.is_empty() {
        let most = random.pick(&[1, 1, 40, 2_000]);
        let (piece, later) = rest.split_at(rest.len().min(1 + random.below(most)));
        talk(&mut host, &heard, &mut second, piece);
        if random.below(50) == 0 {
            thread::sleep(Duration::from_millis(20));
        }
        rest = later;
    }
    assert!(
        heard.try_recv().is_err(),
        "nothing comes that was not asked for"
    );
}
