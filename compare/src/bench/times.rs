//! The tables of times.

use std::fmt::Display;
use std::time::Instant;

use super::cases::TITLES;
use super::side::Runner;
use super::{Case, Compared, Side, Table, tables};
use crate::subject::Subject;

/// How many times are taken of each side; their median counts.
const SAMPLES: usize = 9;
/// A time is taken over at least so many seconds.
const LEAST: f64 = 0.02;

/// Measures all cases, or those that are named, the sides in turn, and prints a line for each.
pub fn print(subject: &dyn Subject, names: &[String]) {
    let question = question(subject);
    println!("nanoseconds a call, medians of {SAMPLES}");
    line("question-1", [format!("{question:.0}")]);
    let named = |case: &&Case| names.is_empty() || names.iter().any(|name| name == case.name);
    for table in tables().filter(|table| table.cases.iter().any(|case| named(&case))) {
        head(table);
        table.cases.iter().filter(named).for_each(|case| row(subject, table, case, question));
    }
}

/// Question 1 alone. It is taken off the sides that say so.
fn question(subject: &dyn Subject) -> f64 {
    let ready = TITLES.ready();
    let [question] = times([Side::Question.runner(subject, &ready)], ready.inputs.len());
    question
}

fn head(table: &Table) {
    let sides = table.sides.iter().map(|column| column.head);
    let words = ["calls", "bytes"].into_iter().chain(table.lent.iter().copied()).chain(sides);
    let ratio = (table.compared == Compared::Ratio).then_some("ratio");
    line("case", words.chain(ratio));
}

/// A case's sizes, its times and their ratio, or what the second takes beyond the first.
fn row(subject: &dyn Subject, table: &Table, case: &Case, question: f64) {
    let ready = case.ready();
    let calls = ready.inputs.len();
    let bytes = ready.inputs.iter().map(Vec::len).sum::<usize>() / calls;
    let rooms = ready.rooms().into_iter().take(table.lent.len());
    let sizes = [calls, bytes].into_iter().chain(rooms).map(|n| n.to_string());
    let sides = table.sides.each_ref();
    let taken = times(sides.map(|column| column.side.runner(subject, &ready)), calls);
    let off = sides.map(|column| if column.off { question } else { 0.0 });
    let [first, second] = [taken[0] - off[0], taken[1] - off[1]];
    let words = match table.compared {
        Compared::Ratio => {
            vec![format!("{first:.0}"), format!("{second:.0}"), format!("{:.2}", second / first)]
        }
        Compared::Beyond => [first, second - first].map(|n| format!("{:.2}", n / 1e3)).into(),
    };
    line(case.name, sizes.chain(words));
}

fn line(name: &str, words: impl IntoIterator<Item = impl Display>) {
    let words: String = words.into_iter().map(|word| format!("{word:>12}")).collect();
    println!("{name:<28}{words}");
}

/// The median nanoseconds a call of the sides, taken in turn.
fn times<const N: usize>(runners: [Runner; N], calls: usize) -> [f64; N] {
    let mut runners = runners.map(|mut run| (passes(&mut run), run, Vec::new()));
    for _ in 0..SAMPLES {
        for (passes, run, taken) in &mut runners {
            taken.push(seconds(run, *passes));
        }
    }
    runners.map(|(_, _, mut taken)| {
        taken.sort_by(f64::total_cmp);
        taken[SAMPLES / 2] * 1e9 / calls as f64
    })
}

/// How many passes a time needs, found by doubling; this also warms up.
fn passes(run: &mut dyn FnMut()) -> u32 {
    let mut passes = 1;
    while seconds(run, passes) * f64::from(passes) < LEAST {
        passes *= 2;
    }
    passes
}

/// Seconds a pass.
fn seconds(run: &mut dyn FnMut(), passes: u32) -> f64 {
    let start = Instant::now();
    (0..passes).for_each(|_| run());
    start.elapsed().as_secs_f64() / f64::from(passes)
}
