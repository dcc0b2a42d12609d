//! Lines of every kind for `keys`, the malformed ones among them.

use super::feed::nth;
use super::hold::Given;
use super::keys::line;
use super::run::Program::Keys;
use super::{Found, Runs};
use crate::call::LONGEST;

/// Lines without their newline.
const KINDS: [&str; 44] = [
    // Well-formed, with a carriage return or without.
    "1\tA2",
    "1\tA2\r",
    "1\t",
    "1\t\r",
    "0\ta2a4",
    "4294967295\tA2",
    "0000000000\tA2",
    // No line at all, no tab.
    "",
    "\r",
    "1",
    "A2",
    "1 A2",
    "1,A2",
    // No number, or another.
    "\tA2",
    " \tA2",
    "+1\tA2",
    "-1\tA2",
    "1 \tA2",
    " 1\tA2",
    "0x1\tA2",
    "1a\tA2",
    "１\tA2",
    "1\0\tA2",
    // Too great or too long.
    "4294967296\tA2",
    "4294967300\tA2",
    "9999999999\tA2",
    "00000000000\tA2",
    "00000000001\tA2",
    "18446744073709551617\tA2",
    // Other digits, or an odd count.
    "1\tA",
    "1\tA2A",
    "1\tG2",
    "1\tA2 ",
    "1\t A2",
    "1\t0xA2",
    "1\tA2\0",
    "1\tＡ2",
    "1\t:2",
    "1\t@A",
    "1\t`a",
    "1\tA2\t",
    "1\t\tA2",
    // Carriage returns elsewhere.
    "1\tA2\r\r",
    "1\r\tA2",
];

/// Each kind alone, without a newline and with one, and between others; all of them; and nothing
/// but newlines.
pub fn lines(runs: &Runs) -> Found {
    let kinds: Vec<_> = KINDS.iter().map(|kind| kind.as_bytes().to_vec()).collect();
    let kinds = [kinds, others(), long()].concat();
    let mut files: Vec<Vec<u8>> = ["", "\n", "\n\n\n", "\r\n\r\n"].map(Into::into).into();
    let good = line("5", &[0xA2]);
    for kind in &kinds {
        let ended = [kind, &b"\n"[..]].concat();
        files.extend([kind.clone(), [&good, &good, &ended[..], &good].concat(), ended]);
    }
    files.push(kinds.join(&b'\n'));
    runs.each(files.len() as u64, |holder, index| {
        let file = &files[index as usize];
        let ways = [index, index + 2].map(|index| nth(index, file));
        ways.into_iter().try_for_each(|feed| holder.run(Keys, Given::rusts(file, feed)))
    })
}

/// Bytes that are no UTF-8, and every byte in the place of a digit of each part.
fn others() -> Vec<Vec<u8>> {
    let every = (0..=255).filter(|b| *b != b'\n');
    let lines = every.flat_map(|b| [vec![b, b'\t', b'A', b'2'], vec![b'1', b'\t', b'A', b]]);
    let texts = [&b"\xFF\tA2"[..], b"1\t\xE3\x81\x82", b"\xEF\xBB\xBF1\tA2"];
    texts.map(<[u8]>::to_vec).into_iter().chain(lines).collect()
}

/// At the longest and beyond it: digits, numbers, carriage returns and neither.
fn long() -> Vec<Vec<u8>> {
    let most = 2 * LONGEST;
    let short = |digits| titled("1", digits, "");
    let mut all: Vec<_> =
        [most - 2, most - 1, most, most + 1, most + 2, 3_000_000].map(short).into();
    // The longest line: ten digits, a tab, the digits of the longest title and a carriage return.
    for end in ["", "\r", "\r\r"] {
        all.extend([most, most + 1, most + 2].map(|digits| titled("4294967295", digits, end)));
    }
    all.extend([vec![b'1'; most], vec![b'\r'; most + 13], vec![b'A'; 3_000_000]]);
    all
}

/// A line with so many digits of HEX.
fn titled(number: &str, digits: usize, end: &str) -> Vec<u8> {
    format!("{number}\t{}{end}", "A".repeat(digits)).into()
}
