//! Programs, run as children.

use std::io::{self, Read, Write};
use std::os::fd::OwnedFd;
use std::os::unix::net::UnixDatagram;
use std::path::PathBuf;
use std::process::{Child, ChildStdin, ChildStdout, Command, Stdio};
use std::thread;

/// Where a proved program is: a variable that names another place, and the place
/// where it is built.
type Place = (&'static str, &'static str);

const LINE: Place = (
    "ABECS_LINE",
    concat!(env!("CARGO_MANIFEST_DIR"), "/../crates/line/out/line"),
);
const REPLAY: Place = (
    "ABECS_REPLAY",
    concat!(env!("CARGO_MANIFEST_DIR"), "/../crates/replay/out/replay"),
);

/// How a program gets its input.
#[derive(Clone, Copy, Debug, PartialEq)]
pub enum Feed {
    /// Cut as the pipe and the reader have it.
    Pipe,
    /// One piece at each read. A pipe would join them, so they go as datagrams;
    /// an empty one reads as the end.
    Pieces,
}

enum Input {
    Pipe(ChildStdin),
    Pieces(UnixDatagram),
}

/// A program that has started and waits for input.
pub struct Running {
    child: Started,
    input: Input,
    output: ChildStdout,
}

/// A child that does not outlive what was wanted of it: one whose input comes in
/// pieces never sees the end of it where a comparison breaks off.
struct Started(Child);

impl Drop for Started {
    fn drop(&mut self) {
        // It has mostly ended by itself, and then there is nothing to do.
        let _ = self.0.kill();
        let _ = self.0.wait();
    }
}

/// The proved program `line`.
pub fn proved() -> Command {
    at(LINE)
}

/// The proved program `replay`.
pub fn proved_replay() -> Command {
    at(REPLAY)
}

/// It must have been built: a comparison without it would pass for nothing.
fn at((variable, default): Place) -> Command {
    let place = std::env::var_os(variable).map_or(PathBuf::from(default), PathBuf::from);
    assert!(
        place.is_file(),
        "the proved program is not at {}: build it, or name its place in {variable}",
        place.display()
    );
    Command::new(place)
}

impl Running {
    pub fn start(mut program: Command, feed: Feed) -> Self {
        program.stdout(Stdio::piped());
        let own_end = match feed {
            Feed::Pipe => {
                program.stdin(Stdio::piped());
                None
            }
            Feed::Pieces => {
                let (own, other) = UnixDatagram::pair().expect("a pair of sockets");
                program.stdin(OwnedFd::from(other));
                Some(own)
            }
        };
        let child = program.spawn();
        let mut child = child.unwrap_or_else(|why| panic!("{program:?}: {why}"));
        // The other end of the pair is the child's alone from here on, so that a
        // piece to a child that has ended is an error and not a wait.
        drop(program);
        let input = match own_end {
            Some(own) => Input::Pieces(own),
            None => Input::Pipe(child.stdin.take().expect("its input is a pipe")),
        };
        let output = child.stdout.take().expect("its output is a pipe");
        Running {
            child: Started(child),
            input,
            output,
        }
    }

    /// Sends a piece and waits for the reply, which must be this one.
    pub fn ask(&mut self, piece: &[u8], wanted: &[u8]) {
        self.input.send(piece).expect("the program reads");
        let mut reply = vec![0; wanted.len()];
        let read = self.output.read_exact(&mut reply);
        read.expect("the program replies");
        assert!(reply == wanted, "{piece:02X?} is answered {reply:02X?}");
    }

    /// Sends the pieces and ends the input; answers with all replies. They are
    /// read meanwhile, else both sides might wait for each other.
    pub fn talk<'a>(self, pieces: impl Iterator<Item = &'a [u8]>) -> Vec<u8> {
        let Running {
            mut child,
            mut input,
            mut output,
        } = self;
        let reader = thread::spawn(move || {
            let mut replies = Vec::new();
            output.read_to_end(&mut replies).map(|_| replies)
        });
        let mut pieces = pieces.filter(|piece| !piece.is_empty());
        let sent = pieces.try_for_each(|piece| input.send(piece));
        let sent = sent.and_then(|()| input.end());
        let replies = reader.join().expect("the reader ends");
        let replies = replies.expect("its output can be read");
        let status = child.0.wait().expect("the program ends");
        assert!(status.success(), "{status}, after {} bytes", replies.len());
        sent.expect("the program reads to the end");
        replies
    }
}

impl Input {
    fn send(&mut self, piece: &[u8]) -> io::Result<()> {
        match self {
            Input::Pipe(pipe) => pipe.write_all(piece),
            Input::Pieces(socket) => socket.send(piece).map(drop),
        }
    }

    fn end(self) -> io::Result<()> {
        match self {
            Input::Pipe(_) => Ok(()),
            Input::Pieces(socket) => socket.send(&[]).map(drop),
        }
    }
}
