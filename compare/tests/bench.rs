//! The cases of the benchmark are what README.md says of them.
#![cfg(feature = "library")]

use compare::bench::{Case, Work, tables};
use compare::call::Call;
use compare::model::Reading;

fn cases() -> impl Iterator<Item = &'static Case> {
    tables().flat_map(|table| table.cases)
}

/// How many issues each input of a case has.
fn issues(name: &str) -> Vec<usize> {
    let ready = cases().find(|case| case.name == name).unwrap().ready();
    let issues = |input: &Vec<u8>| {
        let mut reading = Reading::default();
        Call { input, ..ready.call }.read(&mut reading);
        reading.issues.len()
    };
    ready.inputs.iter().map(issues).collect()
}

#[test]
fn damaged_inputs_have_issues() {
    assert!(issues("crate-titles").iter().all(|&issues| issues == 0));
    let damaged = issues("crate-damaged");
    assert_eq!((damaged.iter().min(), damaged.iter().max()), (Some(&27), Some(&80)));
    assert_eq!(damaged.iter().filter(|&&issues| issues > 64).count(), 11);
    assert_eq!(issues("crate-damaged-long"), [8_191]);
}

#[test]
fn every_fourth_is_private_use() {
    let ready = cases().find(|case| case.name == "private-use").unwrap().ready();
    let mut reading = Reading::default();
    Call { input: &ready.inputs[0], ..ready.call }.read(&mut reading);
    assert_eq!((ready.inputs[0].len(), reading.issues.len()), (65_532, 0));
    let lines = reading.as_str().lines().count();
    assert_eq!((lines, reading.as_str().chars().count()), (1_524, 29 * 1_524));
    assert_eq!(reading.private_use(), 7 * 1_524);
}

#[test]
fn what_is_decoded_is_measured() {
    let decoded = cases().filter(|case| matches!(case.work, Work::Decode(_)));
    let measured = cases().filter(|case| case.work == Work::Measure).map(|case| case.name);
    assert!(decoded.map(|case| format!("measure-{}", case.name)).eq(measured));
}
