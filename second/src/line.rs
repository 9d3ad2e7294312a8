//! The program `line`: a fresh device between standard input and standard output
//! (the scope paper, section Sample line traffic).

use crate::device::{Device, ROOM};
use crate::table::store::SIZE;
use std::fs::File;
use std::io::{stdin, stdout, ErrorKind, Read, Result, Write};
use std::os::fd::AsFd;

/// What is asked for with one read.
pub const PIECE: usize = 4096;

/// A device with stores of its own.
pub struct Line {
    pub device: Device,
    pub live: Vec<u8>,
    pub loading: Vec<u8>,
}

impl Line {
    pub fn fresh() -> Self {
        let mut live = vec![0; SIZE];
        let mut loading = vec![0; SIZE];
        let device = Device::start(&mut live, &mut loading).expect("the stores are of their size");
        Line {
            device,
            live,
            loading,
        }
    }

    /// Hands over a piece, again and again what is left of it, and gives each
    /// reply away.
    pub fn take(&mut self, mut piece: &[u8], mut give: impl FnMut(&[u8])) {
        let mut out = [0; ROOM];
        while !piece.is_empty() {
            let done = self
                .device
                .receive(piece, &mut out, &mut self.live, &mut self.loading);
            assert_eq!(done.refusal, 0, "nothing here breaks a rule");
            give(&out[..done.written]);
            piece = &piece[done.taken..];
        }
    }

    /// The replies to a piece, one by one.
    pub fn replies(&mut self, piece: &[u8]) -> Vec<Vec<u8>> {
        let mut replies = Vec::new();
        self.take(piece, |reply| replies.push(reply.to_vec()));
        replies.retain(|reply| !reply.is_empty());
        replies
    }
}

/// The program. It takes standard input and output as files, without the buffers
/// that lie around them: one read there is one here.
pub fn program() -> Result<()> {
    let input = File::from(stdin().as_fd().try_clone_to_owned()?);
    let output = File::from(stdout().as_fd().try_clone_to_owned()?);
    run(input, output)
}

/// Answers the input as it comes, until it ends. The replies to what one read has
/// brought leave before the next read, since the other end may wait for them.
pub fn run(mut input: impl Read, mut output: impl Write) -> Result<()> {
    let mut line = Line::fresh();
    let mut piece = [0; PIECE];
    let mut replies = Vec::new();
    loop {
        let length = match input.read(&mut piece) {
            Ok(0) => return Ok(()),
            Ok(length) => length,
            Err(why) if why.kind() == ErrorKind::Interrupted => continue,
            Err(why) => return Err(why),
        };
        replies.clear();
        line.take(&piece[..length], |reply| replies.extend_from_slice(reply));
        output.write_all(&replies)?;
        output.flush()?;
    }
}

#[cfg(test)]
mod tests {
    use super::{run, Line, PIECE};
    use std::cell::RefCell;
    use std::io::{Read, Write};

    const OPN: [u8; 7] = [0x16, 0x4F, 0x50, 0x4E, 0x17, 0xA8, 0xA9];
    const OPENED: [u8; 11] = [
        0x06, 0x16, 0x4F, 0x50, 0x4E, 0x30, 0x30, 0x30, 0x17, 0x77, 0x5E,
    ];

    /// What a program did: the room of each read, the bytes of each write, and
    /// each flush.
    #[derive(Debug, PartialEq)]
    enum Step {
        Read(usize),
        Write(Vec<u8>),
        Flush,
    }

    /// Gives a piece at each read and nothing at the end.
    struct Input<'a>(Vec<&'a [u8]>, &'a RefCell<Vec<Step>>);
    struct Output<'a>(&'a RefCell<Vec<Step>>);

    impl Read for Input<'_> {
        fn read(&mut self, room: &mut [u8]) -> std::io::Result<usize> {
            self.1.borrow_mut().push(Step::Read(room.len()));
            let piece = self.0.pop().unwrap_or_default();
            room[..piece.len()].copy_from_slice(piece);
            Ok(piece.len())
        }
    }

    impl Write for Output<'_> {
        fn write(&mut self, bytes: &[u8]) -> std::io::Result<usize> {
            self.0.borrow_mut().push(Step::Write(bytes.to_vec()));
            Ok(bytes.len())
        }

        fn flush(&mut self) -> std::io::Result<()> {
            self.0.borrow_mut().push(Step::Flush);
            Ok(())
        }
    }

    #[test]
    fn the_replies_to_a_read_leave_before_the_next() {
        let steps = RefCell::new(Vec::new());
        let two = [&OPN[..], &[0x18], &OPN[..3]].concat();
        let pieces = vec![&OPN[3..], &two];
        run(Input(pieces, &steps), Output(&steps)).expect("no error");
        let wanted = [
            Step::Read(PIECE),
            Step::Write([&OPENED[..], &[0x04]].concat()),
            Step::Flush,
            Step::Read(PIECE),
            Step::Write(OPENED.to_vec()),
            Step::Flush,
            Step::Read(PIECE),
        ];
        assert_eq!(*steps.borrow(), wanted);
    }

    #[test]
    fn replies_come_one_by_one() {
        let traffic = [&[0x15], &OPN[..], &[0x15, 0x18, 0x15, 0x16, 0x17, 0, 0]].concat();
        let replies = Line::fresh().replies(&traffic);
        assert_eq!(
            replies,
            [&OPENED[..], &OPENED[1..], &[0x04], &[0x15]].map(<[u8]>::to_vec)
        );
    }
}
