//! The bookmarks of the benchmark are where README.md says.

use compare::bench::{Case, Work, tables};
use compare::call::Call;
use compare::model::Reading;

fn cases() -> impl Iterator<Item = &'static Case> {
    let all = tables().flat_map(|table| table.cases);
    all.filter(|case| matches!(case.work, Work::Set | Work::Return))
}

/// How long the inputs of a case are together, and how much of it is before the bookmarks.
fn lengths(case: &Case) -> (usize, usize) {
    let ready = case.ready();
    let middles = ready.middles();
    (middles.iter().map(|(input, _)| input.len()).sum(), middles.iter().map(|(_, at)| at).sum())
}

/// Of the long inputs half is before the bookmark, but for a line.
#[test]
fn near_the_middle() {
    let long = cases().filter(|case| !case.name.ends_with("titles"));
    for case in long {
        let (length, before) = lengths(case);
        assert!(before.abs_diff(length / 2) < 100, "{}: {before} of {length}", case.name);
    }
}

/// Of the titles together some half is, and few have their bookmark at an end.
#[test]
fn titles() {
    let case = cases().find(|case| case.name == "return-titles").unwrap();
    let (length, before) = lengths(case);
    let ready = case.ready();
    let ends = |&(input, at): &(&[u8], usize)| at == 0 || at == input.len();
    let ends = ready.middles().iter().filter(|middle| ends(middle)).count();
    println!("{before} of {length}, {ends} at an end");
    assert!(before.abs_diff(length / 2) < length / 8 && ends < 6, "{before}, {length}, {ends}");
}

/// What is behind a bookmark reads alone as the rest does.
#[test]
fn halves_are_the_whole() {
    for case in cases() {
        let ready = case.ready();
        for (input, place) in ready.middles() {
            let read = |input: &[u8]| {
                let mut reading = Reading::default();
                Call { input, ..ready.call }.read(&mut reading);
                reading
            };
            let (whole, before, behind) =
                (read(input), read(&input[..place]), read(&input[place..]));
            assert_eq!(whole.text, [before.text, behind.text].concat(), "{}", case.name);
            assert!(whole.issues.is_empty() && whole.charge == 0);
        }
    }
}
