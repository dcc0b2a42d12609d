//! One run held: what a program prints against the models, which are held against the Rust.

use std::path::Path;
use std::process::Command;

use super::feed::Feed;
use super::folder::Folder;
use super::run::{self, Program, Said};
use super::table::Table;
use super::{Tally, encoding, line, listing};
use crate::call::Call;
use crate::difference::{Difference, Held, held};
use crate::runs::Worker;
use crate::{cells, decode, encode, subject};

/// What a program is given: its `jis.tab`, standard input, and how that comes.
#[derive(Clone, Copy)]
pub struct Given<'a> {
    pub table: &'a Table,
    pub input: &'a [u8],
    pub feed: Feed,
}

impl<'a> Given<'a> {
    /// With the Rust's table.
    pub fn rusts(input: &'a [u8], feed: Feed) -> Given<'a> {
        Given { table: &Table::Rusts, input, feed }
    }
}

/// What a thread keeps from run to run.
pub struct Holder {
    pub bin: &'static Path,
    pub reader: decode::Holder<'static>,
    pub coder: encode::Holder<'static>,
    pub tally: Tally,
}

impl Worker for Holder {
    type Subject = &'static Path;
    type Tally = Tally;

    /// The subject is the programs' folder.
    fn new(bin: &'static Path) -> Self {
        let model = subject::model();
        let (reader, coder) = (Worker::new(model), Worker::new(model));
        Holder { bin, reader, coder, tally: Tally::default() }
    }

    fn tally(self) -> Tally {
        self.tally
    }
}

impl Holder {
    /// Runs a program, and holds all that it says.
    pub fn run(&mut self, program: Program, given: Given) -> Held {
        self.run_as(program, given, |command, _| Some(command))
    }

    /// The same with a command that `change` makes of the program's, in its folder; without one the
    /// run is left out.
    pub fn run_as(
        &mut self,
        program: Program,
        given: Given,
        change: impl FnOnce(Command, &Path) -> Option<Command>,
    ) -> Held {
        let cells = given.table.cells();
        let call = Call { cells: &cells, initial: 0, width: 0, input: given.input };
        let folder = Folder::new().expect("a folder below target/");
        given.table.put(folder.path()).expect("a jis.tab in it");
        let Some(command) = change(program.command(self.bin, folder.path()), folder.path()) else {
            self.tally.skipped += 1;
            return Ok(());
        };
        let mut expected = self.expected(program, call)?;
        expected.err.splice(0..0, given.table.said().bytes());
        let said = run::run(command, folder.path(), given.feed, given.input);
        self.hold(program, call, given, &expected, &said.expect("the program starts"))
    }

    /// What a program must say, the table aside.
    fn expected(&mut self, program: Program, call: Call) -> Result<Said, Difference> {
        match program {
            Program::Listing => listing::said(self, call),
            Program::Encoding => encoding::said(self, call),
            Program::Keys => line::said(self, call),
        }
    }

    /// The model's reading, which is the Rust's where the table is.
    pub fn read(&mut self, call: Call) -> Held {
        if call.cells == cells::rusts() {
            return self.reader.read_both(call);
        }
        self.reader.read(call);
        Ok(())
    }

    /// Counts a run, and holds it.
    pub fn hold(
        &mut self,
        program: Program,
        call: Call,
        given: Given,
        expected: &Said,
        said: &Said,
    ) -> Held {
        self.tally.runs += 1;
        self.tally.given += given.input.len() as u64;
        self.tally.printed += said.out.len() as u64;
        let fault = fault(expected, said).map(|what| format!("{}: {what}", program.name()));
        held(fault, &Call { input: shown(call.input), ..call }, |difference| {
            let difference = difference.line("input in all", given.input.len());
            let difference = difference.line("standard input", format!("{:?}", given.feed));
            difference.line("expected", words(expected, said)).line("said", words(said, expected))
        })
    }
}

/// In what the program says something else, if in anything.
fn fault(expected: &Said, said: &Said) -> Option<&'static str> {
    if said.status != expected.status {
        Some("how it ends")
    } else if said.err != expected.err {
        Some("standard error")
    } else {
        (said.out != expected.out).then_some("standard output")
    }
}

/// The status, standard error, and the first line of standard output that is not the other's.
fn words(said: &Said, other: &Said) -> String {
    let lines =
        |said: &Said| said.out.split(|&b| b == b'\n').map(<[u8]>::to_vec).collect::<Vec<_>>();
    let (lines, others) = (lines(said), lines(other));
    let first = (0..lines.len()).find(|&n| lines.get(n) != others.get(n));
    let line = first.map_or("no other line".into(), |n| {
        format!("line {}: {}", n + 1, String::from_utf8_lossy(&lines[n]))
    });
    format!("{}, {:?}, {line}", said.status, String::from_utf8_lossy(&said.err))
}

/// As much of an input as is printed.
fn shown(input: &[u8]) -> &[u8] {
    &input[..input.len().min(1 << 17)]
}
