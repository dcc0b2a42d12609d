//! Standard input that cannot be read, and standard output that cannot be written.

use std::fs::File;
use std::io::{BufRead, BufReader};
use std::process::{ChildStdout, Command, Stdio};
use std::thread;

use super::feed::Feed;
use super::folder::Folder;
use super::hold::{Given, Holder};
use super::run::{Program, Said};
use super::table::Table;
use super::{Found, Runs};
use crate::call::Call;
use crate::cells;
use crate::difference::Held;

/// Standard input a folder or closed, standard output full or closed, for each program; and `keys`
/// before a reader that stops.
pub fn streams(runs: &Runs) -> Found {
    runs.each_of(&Program::ALL, |holder, &program| {
        let of = |err: &str| Said { err: err.into(), ..Said::default() };
        let folder = of("standard input: Is a directory\n");
        ended(holder, program, &folder, |command| {
            command.stdin(File::open(".").expect("a folder"))
        })?;
        let none = of("standard input: Bad file descriptor\n");
        ended_by_shell(holder, program, &none, "exec \"$0\" <&-")?;
        let full = of("standard output: No space left on device\n");
        ended_by_shell(holder, program, &full, "printf '1\\tA2\\n' | \"$0\" >/dev/full")?;
        let closed = of("standard output: Bad file descriptor\n");
        ended_by_shell(holder, program, &closed, "printf '1\\tA2\\n' | \"$0\" >&-")?;
        if program == Program::Keys { stopped(holder) } else { Ok(()) }
    })
}

/// A run that `change` gives its standard input.
fn ended(
    holder: &mut Holder,
    program: Program,
    expected: &Said,
    change: impl FnOnce(&mut Command) -> &mut Command,
) -> Held {
    let folder = Folder::new().expect("a folder below target/");
    Table::Rusts.put(folder.path()).expect("a jis.tab in it");
    let mut command = program.command(holder.bin, folder.path());
    let output = change(&mut command).output().expect("the program starts");
    let said = Said { out: output.stdout, err: output.stderr, status: output.status };
    hold(holder, program, expected, &said)
}

/// A run by the shell, to which the program is `$0`.
fn ended_by_shell(holder: &mut Holder, program: Program, expected: &Said, line: &str) -> Held {
    ended(holder, program, expected, |command| {
        let path = command.get_program().to_owned();
        let folder = command.get_current_dir().expect("set").to_owned();
        *command = Command::new("sh");
        command.args(["-c", line]).arg(path).current_dir(folder)
    })
}

/// Lines without end: where the reader of `keys` stops after some, `keys` says so and ends. SIGPIPE is
/// ignored by what the kit starts a program with, as by what Rust does.
fn stopped(holder: &mut Holder) -> Held {
    let folder = Folder::new().expect("a folder below target/");
    let mut command = Program::Keys.command(holder.bin, folder.path());
    let streams = command.stdin(Stdio::piped()).stdout(Stdio::piped()).stderr(Stdio::piped());
    let mut child = streams.spawn().expect("the program starts");
    let (pipe, out) = (child.stdin.take().expect("piped"), child.stdout.take().expect("piped"));
    let lines = thread::scope(|scope| {
        scope.spawn(|| Feed::Endless.write(b"1\tA2\n", pipe).expect("a pipe"));
        some_lines(out)
    });
    let output = child.wait_with_output().expect("the program ends");
    let said = Said { out: lines, err: output.stderr, status: output.status };
    let err = format!("{}standard output: Broken pipe\n", Table::Absent.said()).into();
    let out = "1\tあ\n".repeat(SOME).into();
    hold(holder, Program::Keys, &Said { out, err, ..Said::default() }, &said)
}

/// How many lines are read before the reader stops.
const SOME: usize = 100_000;

/// The first lines; then the pipe is closed.
fn some_lines(out: ChildStdout) -> Vec<u8> {
    let mut lines = vec![];
    let mut reader = BufReader::new(out);
    for _ in 0..SOME {
        reader.read_until(b'\n', &mut lines).expect("a line");
    }
    lines
}

fn hold(holder: &mut Holder, program: Program, expected: &Said, said: &Said) -> Held {
    let call = Call { cells: cells::rusts(), initial: 0, width: 0, input: &[] };
    let given = Given::rusts(&[], Feed::Pipe);
    holder.hold(program, call, given, expected, said)
}
