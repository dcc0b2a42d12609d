//! `oracle table`, `leaves`, `decode` or `encode`; README.md has the forms.

use std::io::{self, BufRead, BufWriter, Write};
use std::process::ExitCode;

use oracle::{cells, leaves, request};

const USAGE: &str = "usage: oracle table | leaves | decode | encode";

fn main() -> ExitCode {
    match answer(std::env::args().nth(1).as_deref()) {
        Ok(()) => ExitCode::SUCCESS,
        Err(error) => {
            eprintln!("oracle: {error}");
            ExitCode::FAILURE
        }
    }
}

fn answer(command: Option<&str>) -> io::Result<()> {
    match command {
        Some("table") => io::stdout().write_all(&cells::table()),
        Some("leaves") => io::stdout().write_all(&leaves::file()),
        Some("decode") => batch(request::decode),
        Some("encode") => batch(request::encode),
        _ => Err(io::Error::other(USAGE)),
    }
}

/// One line of answer for each line of standard input, in order.
fn batch(answer: fn(&str) -> String) -> io::Result<()> {
    let mut out = BufWriter::new(io::stdout().lock());
    for line in io::stdin().lock().split(b'\n') {
        let line = line?;
        writeln!(out, "{}", answer(&String::from_utf8_lossy(&line)))?;
    }
    out.flush()
}
