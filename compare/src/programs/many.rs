//! Many lines for `keys`, in constant memory.

use std::path::Path;
use std::process::Command;

use super::hold::Given;
use super::run::Program::Keys;
use super::{Feed, Found, Runs};
use crate::difference::digits;
use crate::inputs;
use crate::random::Random;
use crate::titles;

/// So many kilobytes may the program take in all, its code and its stack counted (`ulimit -v`).
const MEMORY: u32 = 8_192;

/// Titles and random inputs over and over, each line with a number of its own; then one line of as
/// many bytes.
pub fn lines(runs: &Runs) -> Found {
    let titles = titles::all();
    let mut random = Random::new(runs.seed, 1);
    let inputs = (0..40).map(|_| inputs::random(&mut random, &titles)).chain(titles.clone());
    let digits: Vec<_> = inputs.map(|input| digits(&input)).collect();
    let mut file = vec![];
    for (n, digits) in (0..runs.amount.lines).zip(digits.iter().cycle()) {
        // A line in a thousand is malformed.
        let tab = if n % 1_000 == 999 { ' ' } else { '\t' };
        file.extend(format!("{n}{tab}{digits}\n").bytes());
    }
    let long = vec![b'A'; file.len()];
    runs.each_of(&[file, long], |holder, file| {
        holder.run_as(Keys, Given::rusts(file, Feed::Pipe), |command, folder| {
            Some(within(&command, folder))
        })
    })
}

/// The command with so much memory.
fn within(command: &Command, folder: &Path) -> Command {
    let mut limited = Command::new("sh");
    limited.args(["-c", &format!("ulimit -v {MEMORY} && exec \"$0\"")]);
    limited.arg(command.get_program()).current_dir(folder);
    limited
}
