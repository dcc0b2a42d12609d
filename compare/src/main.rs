//! `compare decode`, `encode`, `catalogue`, `bookmarks`, `arrangements`, `crate`, `programs`,
//! `vectors`, `encode-vectors`, `catalogue-vectors`, `bookmark-vectors` or `bench`; README.md has
//! what each prints.

use std::io::{self, Write};
use std::path;
use std::process::ExitCode;

use compare::bench::{self, Side};
use compare::runs::{Amount, Runs, Worker};
use compare::subject::{self, Subject};
use compare::words::{Words, number};
use compare::{bookmarks, catalogue, decode, encode};

const USAGE: &str = "usage:
compare decode [--seed N] [--random N] [--every N] [--threads N] [--greatest] [--subject model]
compare encode [--seed N] [--random N] [--every N] [--threads N] [--greatest] [--subject model]
compare catalogue [--seed N] [--random N] [--threads N] [--subject model]
compare bookmarks [--quick] [--seed N] [--random N] [--threads N] [--subject model]
compare arrangements [--seed N] [--random N] [--threads N] [--subject model]
compare crate [--seed N] [--inputs N] [--texts N] [--threads N]
compare programs [--seed N] [--random N] [--lines N] [--threads N] [--bin FOLDER]
compare vectors N
compare encode-vectors N
compare catalogue-vectors [N]
compare bookmark-vectors [N]
compare bench [CASE ..] [--subject model]
compare bench --list
compare bench --only rust|subject|exact|key|half|question CASE PASSES [STORE] [--subject model]";

fn main() -> ExitCode {
    let mut words = Words::of_program();
    let done = match words.take().as_deref() {
        Some("decode") => run(words, decode::USUAL, decode::all),
        Some("encode") => run(words, encode::USUAL, encode::all),
        Some("catalogue") => run_catalogue(words),
        Some("bookmarks") => run_bookmarks(words),
        Some("arrangements") => run_arrangements(words),
        Some("crate") => run_crate(words),
        Some("programs") => run_programs(words),
        Some("vectors") => write_file(words, None, decode::vectors::file),
        Some("encode-vectors") => write_file(words, None, encode::vectors::file),
        Some("catalogue-vectors") => write_file(words, Some(usize::MAX), catalogue::vectors::file),
        Some("bookmark-vectors") => write_file(words, Some(usize::MAX), bookmarks::vectors::file),
        Some("bench") => measure(words),
        _ => Err(USAGE.into()),
    };
    match done {
        Ok(true) => ExitCode::SUCCESS,
        Ok(false) => ExitCode::FAILURE,
        Err(error) => {
            eprintln!("compare: {error}");
            ExitCode::from(2)
        }
    }
}

/// All differential runs of decoding or of coding; false at a difference.
fn run<W>(
    mut words: Words,
    usual: Amount,
    all: fn(&Runs<W, Amount>) -> bool,
) -> Result<bool, String>
where
    W: Worker<Subject = &'static dyn Subject>,
{
    let (name, subject) = subject(&mut words)?;
    let amount = Amount {
        random: words.number("--random", usual.random)?,
        every: words.number("--every", usual.every)?.max(1),
        greatest: words.flag("--greatest"),
    };
    let runs = runs(words, subject, amount)?;
    println!("subject: {name}");
    Ok(all(&runs))
}

/// All runs of the catalogue; false at a difference.
fn run_catalogue(mut words: Words) -> Result<bool, String> {
    use compare::catalogue::{Amount, USUAL, all};
    let (name, subject) = subject(&mut words)?;
    let amount = Amount { random: words.number("--random", USUAL.random)? };
    let runs = runs(words, subject, amount)?;
    println!("subject: {name}");
    Ok(all(&runs))
}

/// All runs of bookmarks, or the quick ones with slices that lie alone; false at a difference.
fn run_bookmarks(mut words: Words) -> Result<bool, String> {
    use compare::bookmarks::{Amount, Lying, QUICK, USUAL, all, quick};
    let (name, subject) = subject(&mut words)?;
    let (run, usual, lying): (fn(&_) -> bool, _, _) = if words.flag("--quick") {
        (quick, QUICK, Lying::Alone)
    } else {
        (all, USUAL, Lying::Guarded)
    };
    let amount = Amount { random: words.number("--random", usual.random)? };
    let runs = runs(words, (subject, lying), amount)?;
    println!("subject: {name}");
    Ok(run(&runs))
}

/// All runs of admissible codings; false at a difference.
fn run_arrangements(mut words: Words) -> Result<bool, String> {
    use compare::arrangements::{Amount, USUAL, all};
    let (name, subject) = subject(&mut words)?;
    let amount = Amount { random: words.number("--random", USUAL.random)? };
    let runs = runs(words, subject, amount)?;
    println!("subject: {name}");
    Ok(all(&runs))
}

/// All differential runs of the crate in rust/; false at a difference.
#[cfg(feature = "library")]
fn run_crate(mut words: Words) -> Result<bool, String> {
    use compare::binding::{Amount, CALLS, USUAL, all};
    let amount = Amount {
        inputs: words.number("--inputs", USUAL.inputs)?,
        texts: words.number("--texts", USUAL.texts)?,
    };
    Ok(all(&runs(words, CALLS, amount)?))
}

#[cfg(not(feature = "library"))]
fn run_crate(_: Words) -> Result<bool, String> {
    Err("no library is linked".into())
}

/// All runs of the programs; false at a difference.
fn run_programs(mut words: Words) -> Result<bool, String> {
    use compare::programs::{Amount, BIN, USUAL, all};
    let bin = words.value("--bin")?.unwrap_or_else(|| BIN.into());
    let bin = path::absolute(bin).map_err(|error| error.to_string())?;
    let amount = Amount {
        random: words.number("--random", USUAL.random)?,
        lines: words.number("--lines", USUAL.lines)?,
    };
    all(&runs(words, &*bin.leak(), amount)?)
}

/// Runs with the seed and the threads of the last words.
fn runs<W: Worker, A: Sync>(
    mut words: Words,
    subject: W::Subject,
    amount: A,
) -> Result<Runs<W, A>, String> {
    let usual = Runs::new(subject, amount);
    let runs = Runs {
        seed: words.number("--seed", usual.seed)?,
        threads: words.number("--threads", usual.threads as u64)?.max(1) as usize,
        ..usual
    };
    words.end()?;
    Ok(runs)
}

/// A file of vectors, on standard output: as many as are asked for, or as usual.
fn write_file(
    mut words: Words,
    usual: Option<usize>,
    file: fn(usize) -> Vec<u8>,
) -> Result<bool, String> {
    let asked = words.take().map(|word| number(&word)).transpose()?;
    words.end()?;
    let count = asked.map(|count| count as usize).or(usual).ok_or("how many vectors?")?;
    let file = file(count);
    io::stdout().write_all(&file).map_err(|error| error.to_string())?;
    Ok(true)
}

/// The tables of times, of all cases or of the named ones; the list of cases; or one side of one case.
fn measure(mut words: Words) -> Result<bool, String> {
    let (name, subject) = subject(&mut words)?;
    if words.flag("--list") {
        bench::list();
    } else if let Some(side) = words.value("--only")? {
        let side = Side::named(&side).ok_or("no such side")?;
        let case = words.take().ok_or("which case?")?;
        let passes = number(&words.take().ok_or("how many passes?")?)?;
        let store = words.take().map(|word| number(&word)).transpose()?;
        bench::only(subject, side, &case, passes, store.map(|numbers| numbers as usize))?;
    } else {
        let cases: Vec<String> = std::iter::from_fn(|| words.take()).collect();
        println!("subject: {name}");
        bench::print(subject, &cases);
    }
    words.end()?;
    Ok(true)
}

fn subject(words: &mut Words) -> Result<(&'static str, &'static dyn Subject), String> {
    let name = words.value("--subject")?;
    subject::named(name.as_deref()).ok_or_else(|| "no such subject is linked".into())
}
