//! One run of a program.

use std::fs::{self, File};
use std::io::Result;
use std::path::Path;
use std::process::{Command, ExitStatus, Stdio};
use std::thread;

use oracle::coding::Refusal;

use super::feed::Feed;

/// The programs.
#[derive(Debug, Clone, Copy, PartialEq, Eq)]
pub enum Program {
    Listing,
    Encoding,
    Keys,
}

impl Program {
    pub const ALL: [Program; 3] = [Program::Listing, Program::Encoding, Program::Keys];

    pub fn name(self) -> &'static str {
        match self {
            Program::Listing => "listing",
            Program::Encoding => "encoding",
            Program::Keys => "keys",
        }
    }

    /// The command that runs it, in a folder.
    pub fn command(self, bin: &Path, folder: &Path) -> Command {
        let mut command = Command::new(bin.join(self.name()));
        command.current_dir(folder);
        command
    }
}

/// What a program says on standard output and on standard error, and how it ends.
#[derive(Debug, Default, PartialEq, Eq)]
pub struct Said {
    pub out: Vec<u8>,
    pub err: Vec<u8>,
    pub status: ExitStatus,
}

impl Said {
    /// These lines, and nothing on standard error.
    pub fn of(lines: String) -> Said {
        Said { out: lines.into(), ..Said::default() }
    }

    /// A refusal.
    pub fn refused(Refusal { number, place }: Refusal) -> Said {
        Said::of(format!("refused {number} {place}\n"))
    }
}

/// Runs a command with this standard input. A file lies beside the folder's `jis.tab`.
pub fn run(mut command: Command, folder: &Path, feed: Feed, input: &[u8]) -> Result<Said> {
    command.stdin(match feed {
        Feed::File => {
            let path = folder.join("input");
            fs::write(&path, input)?;
            Stdio::from(File::open(path)?)
        }
        _ => Stdio::piped(),
    });
    command.stdout(Stdio::piped()).stderr(Stdio::piped());
    let mut child = command.spawn()?;
    let pipe = child.stdin.take();
    thread::scope(|scope| {
        let written = scope.spawn(|| pipe.map_or(Ok(()), |pipe| feed.write(input, pipe)));
        let output = child.wait_with_output()?;
        written.join().expect("no thread panics")?;
        Ok(Said { out: output.stdout, err: output.stderr, status: output.status })
    })
}
