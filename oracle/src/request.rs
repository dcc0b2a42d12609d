//! Requests and answers as lines; README.md has the form.

use std::fmt::Write;

use crate::coding::{Refusal, code};
use crate::hex;
use crate::options::Options;
use crate::reading::{Issue, Reading, read};

/// The answer to a line that is no request.
pub const BAD: &str = "bad request";

/// The answer to one request for reading, without its newline.
pub fn decode(line: &str) -> String {
    parse(line).map_or(BAD.into(), |(options, bytes)| reading(&read(options, &bytes)))
}

/// The answer to one request for coding, without its newline.
pub fn encode(line: &str) -> String {
    parse(line).map_or(BAD.into(), |(options, text)| coding(code(options, &text)))
}

/// Initial state, width, and the bytes in any number of parts.
fn parse(line: &str) -> Option<(Options, Vec<u8>)> {
    let mut words = line.split_ascii_whitespace();
    let initial = words.next()?.parse().ok()?;
    let width = words.next()?.parse().ok()?;
    let mut bytes = Vec::new();
    for part in words {
        hex::parse(&mut bytes, part)?;
    }
    Some((Options::from_numbers(initial, width)?, bytes))
}

fn reading(reading: &Reading) -> String {
    let mut out = digits(reading.text.as_bytes());
    for i in &reading.issues {
        push_issue(&mut out, i);
    }
    out
}

fn coding(coding: Result<Vec<u8>, Refusal>) -> String {
    match coding {
        Ok(bytes) => digits(&bytes),
        Err(Refusal { number, place }) => format!("refused {number} {place}"),
    }
}

/// Digits, or `-` for no bytes.
fn digits(bytes: &[u8]) -> String {
    let mut out = String::with_capacity(2 * bytes.len() + 1);
    hex::push(&mut out, bytes);
    if bytes.is_empty() {
        out.push('-');
    }
    out
}

fn push_issue(out: &mut String, issue: &Issue) {
    let Issue { offset, kind, fields: [first, second], ref escape } = *issue;
    let written = match kind {
        1 => write!(out, " {offset},{kind},"),
        _ => write!(out, " {offset},{kind},{first},{second}"),
    };
    written.expect("a String takes every write");
    hex::push(out, escape);
}
