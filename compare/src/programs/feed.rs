//! How standard input comes.

use std::io::{ErrorKind, Result, Write};
use std::thread::sleep;
use std::time::Duration;

/// What a program's standard input is.
#[derive(Debug, Clone, Copy)]
pub enum Feed {
    /// A file.
    File,
    /// A pipe, into which all is written at once.
    Pipe,
    /// A pipe, into which pieces of these lengths are written in turn, with a pause after each.
    Pieces(&'static [usize]),
    /// A pipe, into which the input is written over and over until the program closes it.
    Endless,
}

/// A byte at a time.
pub const BYTES: Feed = Feed::Pieces(&[1]);

/// Uneven pieces, which break lines and characters.
pub const UNEVEN: Feed = Feed::Pieces(&[1, 2, 700, 3, 64, 4_095, 7, 1_000, 4_097, 13]);

/// Each way in which an input can come that ends.
pub const ENDING: [Feed; 4] = [Feed::File, Feed::Pipe, BYTES, UNEVEN];

/// One of these ways for an input of a list, in turn; a long one would take minutes by bytes.
pub fn nth(index: u64, input: &[u8]) -> Feed {
    match ENDING[index as usize % ENDING.len()] {
        Feed::Pieces(_) if input.len() > 20_000 => UNEVEN,
        feed => feed,
    }
}

/// Long enough for the program to have read what was written, mostly.
const PAUSE: Duration = Duration::from_micros(50);

impl Feed {
    /// Writes the input into a pipe. A program may close it before its end, since none reads more
    /// than it takes.
    pub fn write(self, input: &[u8], pipe: impl Write) -> Result<()> {
        match self.write_all(input, pipe) {
            Err(error) if error.kind() == ErrorKind::BrokenPipe => Ok(()),
            done => done,
        }
    }

    fn write_all(self, mut input: &[u8], mut pipe: impl Write) -> Result<()> {
        match self {
            Feed::File => Ok(()),
            Feed::Pipe => pipe.write_all(input),
            Feed::Pieces(lengths) => {
                for &length in lengths.iter().cycle() {
                    let (piece, rest) = input.split_at(length.min(input.len()));
                    if piece.is_empty() {
                        break;
                    }
                    pipe.write_all(piece)?;
                    sleep(PAUSE);
                    input = rest;
                }
                Ok(())
            }
            Feed::Endless => loop {
                pipe.write_all(input)?;
            },
        }
    }
}
