//! Each `jis.tab` for each program.

use super::feed::Feed;
use super::hold::{Given, Holder};
use super::keys::line;
use super::run::Program;
use super::table::Table;
use super::{Found, Runs, nobody};
use crate::call::LONGEST_TEXT;
use crate::difference::Held;
use crate::random::Random;
use crate::{cells, inputs, titles};

/// Absent, served, refused by question 1, and unreadable ones.
pub fn tables(runs: &Runs) -> Found {
    let mut all = vec![];
    all.extend([Table::Rusts, Table::Absent, Table::Dangling, Table::Folder, Table::Unreadable]);
    let other = |index| cells::other(&mut Random::new(runs.seed, index), index);
    all.extend((0..12).map(|index| Table::of(&other(index))));
    all.extend(lengths());
    all.extend(refused());
    runs.each_of(&all, |holder, table| {
        Program::ALL.into_iter().try_for_each(|program| each(holder, program, table))
    })
}

/// Files that are not 17,672 bytes long.
fn lengths() -> impl Iterator<Item = Table> {
    let bytes = || cells::rusts().iter().flat_map(|cell| cell.to_be_bytes()).cycle();
    let lengths = [0, 1, 2, 94, 17_484, 17_670, 17_671, 17_673, 17_674, 35_344, 1 << 20];
    lengths.into_iter().map(move |length| Table::Bytes(bytes().take(length).collect()))
}

/// The Rust's table with a wrong cell: some of those in rows that must be empty, and of surrogates.
fn refused() -> impl Iterator<Item = Table> {
    let rows = cells::in_empty_rows().step_by(151);
    rows.chain(cells::surrogates().step_by(1_201)).map(|(index, number)| {
        let mut cells = cells::rusts().to_vec();
        cells[index] = number;
        Table::of(&cells)
    })
}

/// Inputs with kanji, kana and neither; the longest and one byte more: question 1 comes before 3.
fn each(holder: &mut Holder, program: Program, table: &Table) -> Held {
    let mut inputs = inputs(program);
    inputs.extend(longest(program));
    for input in &inputs {
        let given = Given { table, input, feed: Feed::Pipe };
        match table {
            Table::Unreadable => nobody::run(holder, program, given)?,
            _ => holder.run(program, given)?,
        }
    }
    Ok(())
}

fn inputs(program: Program) -> Vec<Vec<u8>> {
    let titles = titles::lines().take(3);
    match program {
        Program::Listing => {
            let pairs = inputs::every_pair();
            let titles = titles.map(|(bytes, _)| bytes).chain([vec![], vec![0xA2, 0x24]]);
            titles.chain(pairs.chunks(2_000).map(|codes| codes.concat())).collect()
        }
        Program::Encoding => {
            let texts =
                ["", "亜", "あ", "A\n", "年", "ー", "\u{3000}", "あ\u{301}", "\u{301}", "Ω唖"];
            titles.map(|(_, title)| title).chain(texts).map(|text| text.into()).collect()
        }
        Program::Keys => {
            let lines: Vec<_> = titles.map(|(bytes, _)| line("1", &bytes)).collect();
            let row = |codes: &[[u8; 2]]| line("2", codes.as_flattened());
            let rows: Vec<_> = inputs::every_pair().chunks(94).map(row).collect();
            vec![lines.concat(), rows.concat(), b"1\t3021\nmalformed\n2\tA2".into(), vec![]]
        }
    }
}

fn longest(program: Program) -> Vec<Vec<u8>> {
    match program {
        Program::Listing => [4_096, 4_097].map(|length| vec![0xA2; length]).into(),
        Program::Encoding => {
            [LONGEST_TEXT, LONGEST_TEXT + 1].map(|length| vec![b'A'; length]).into()
        }
        Program::Keys => vec![],
    }
}
