//! A `jis.tab` that the user may not read. Root reads every file, and so runs the program as nobody.

use std::fs::File;
use std::path::Path;
use std::process::Command;

use super::hold::{Given, Holder};
use super::run::Program;
use crate::difference::Held;

/// The run is left out where there is no such user.
pub fn run(holder: &mut Holder, program: Program, given: Given) -> Held {
    holder.run_as(program, given, |command, folder| {
        let reads = File::open(folder.join("jis.tab")).is_ok();
        if reads { as_nobody(command.get_program().as_ref(), folder) } else { Some(command) }
    })
}

/// The program as nobody, if there is a way and that user may run it.
fn as_nobody(program: &Path, folder: &Path) -> Option<Command> {
    let may_run = nobody(folder).args(["test", "-x"]).arg(program).status();
    may_run.is_ok_and(|end| end.success()).then(|| {
        let mut command = nobody(folder);
        command.arg(program);
        command
    })
}

/// What runs the words after it as nobody.
fn nobody(folder: &Path) -> Command {
    let mut command = Command::new("setpriv");
    command.args(["--reuid=65534", "--regid=65534", "--clear-groups", "--"]).current_dir(folder);
    command
}
