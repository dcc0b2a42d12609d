//! A line of `keys`: what it must be, and what is printed for it.

use oracle::hex;

use super::hold::Holder;
use super::run::Said;
use crate::call::{Call, LONGEST};
use crate::difference::Difference;
use crate::key;

/// What `keys` must say of an input: a line for each line, a last one without newline among them,
/// and how many are malformed.
pub fn said(holder: &mut Holder, call: Call) -> Result<Said, Difference> {
    let mut said = Said::default();
    let mut malformed = 0;
    for (n, line) in lines(call.input).enumerate() {
        holder.tally.lines += 1;
        match parts(line) {
            Some((number, title)) => {
                let answer = answer(holder, Call { input: &title, ..call })?;
                said.out.extend(format!("{number}\t{answer}\n").bytes());
            }
            None => {
                malformed += 1;
                said.out.extend(format!("line {}: malformed\n", n + 1).bytes());
            }
        }
    }
    holder.tally.malformed += malformed;
    if malformed > 0 {
        said.err = format!("{malformed} malformed\n").into();
    }
    Ok(said)
}

/// The lines without their newlines.
fn lines(input: &[u8]) -> impl Iterator<Item = &[u8]> {
    input.split_inclusive(|&b| b == b'\n').map(|line| line.strip_suffix(b"\n").unwrap_or(line))
}

/// NUMBER and the bytes of HEX: one to ten decimal digits below 2^32, a tab, and digits for at most
/// 65,535 bytes. A carriage return at the end is dropped.
fn parts(line: &[u8]) -> Option<(&str, Vec<u8>)> {
    let line = str::from_utf8(line).ok()?;
    let (number, digits) = line.strip_suffix('\r').unwrap_or(line).split_once('\t')?;
    let is_number = number.len() <= 10 && number.bytes().all(|b| b.is_ascii_digit());
    if !is_number || number.parse::<u64>().ok()? > u32::MAX.into() || digits.len() > 2 * LONGEST {
        return None;
    }
    let mut title = vec![];
    hex::parse(&mut title, digits)?;
    Some((number, title))
}

/// The title's key, or its refusal. Its text has room for 64 bytes a byte, 196,608 at most.
fn answer(holder: &mut Holder, call: Call) -> Result<String, Difference> {
    let mut number = call.questions();
    if number == 0 {
        holder.read(call)?;
        let room = (64 * call.input.len()).min(196_608);
        number = key::questions(room, holder.reader.reading());
    }
    holder.tally.answers[number as usize] += 1;
    Ok(match number {
        0 => key::of(0, holder.reader.reading()).0,
        _ => format!("refused {number} 0"),
    })
}
