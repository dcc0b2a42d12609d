//! A subject with a fault in `arib_clean` is found out.

mod asked;
mod corners;
mod faulty;
mod found;

use asked::{GOOD, MARK, TRUNCATED, change, leave, let_through, refused, refused_calls};
use compare::call::Call;
use compare::cells;
use compare::decode::AMPLE;
use compare::model::Reading;
use compare::subject::model;
use faulty::{Asked, Faulty, SOUND};

/// The first difference on this input, held against the Rust.
fn run(clean: Asked, input: &[u8]) -> Option<String> {
    asked::read(&Faulty { clean, ..SOUND }, input)
}

/// Leaves the place and this answer.
fn answer(counts: &mut [usize], clean: usize) -> u32 {
    leave(counts, [0, clean])
}

fn yes(_: Call, counts: &mut [usize]) -> u32 {
    answer(counts, 1)
}

fn no(_: Call, counts: &mut [usize]) -> u32 {
    answer(counts, 0)
}

/// The model's answer, with another number in one of the counts, if it is lent.
fn then(call: Call, counts: &mut [usize], (index, n): (usize, usize)) -> u32 {
    let number = model().clean(call, counts);
    change(counts, index, n);
    number
}

/// Forgets the marks that wait at the end: it answers as with a character behind them.
fn forgets_marks(call: Call, counts: &mut [usize]) -> u32 {
    let input = [call.input, &[0xA2]].concat();
    model().clean(Call { input: &input, ..call }, counts)
}

/// Forgets what macro bodies report: it says yes where one ran.
fn forgets_bodies(call: Call, counts: &mut [usize]) -> u32 {
    let mut reading = Reading::default();
    call.read(&mut reading);
    answer(counts, usize::from(reading.charge > 0 || reading.issues.is_empty()))
}

/// Puts no question.
fn refuses_nothing(call: Call, counts: &mut [usize]) -> u32 {
    model().clean((1..=3).fold(call, let_through), counts)
}

#[test]
fn no_fault() {
    for input in [&GOOD[..], &TRUNCATED, &MARK] {
        assert_eq!(run(SOUND.clean, input), None);
    }
}

#[test]
fn faults_where_there_is_no_issue() {
    let faults: [Asked; 6] = [
        no,
        |_, counts| answer(counts, 2),
        |_, counts| answer(counts, 1) + 10,
        |call, counts| then(call, counts, (0, 1)),
        |call, counts| then(call, counts, (2, 0)),
        |_, _| 0,
    ];
    found::each(faults, "input 2 bytes: A2A4\n", |fault| run(fault, &GOOD));
}

#[test]
fn faults_where_there_is_an_issue() {
    let faults: [Asked; 3] = [yes, |_, counts| answer(counts, 0) + 10, |_, _| 0];
    found::each(faults, "input 2 bytes: 24A2\n", |fault| run(fault, &TRUNCATED));
}

#[test]
fn marks_that_are_forgotten() {
    assert_eq!(run(forgets_marks, &GOOD), None);
    assert_eq!(run(forgets_marks, &[0xA2, 0x21, 0x2D, 0x0D]), None);
    found::each([forgets_marks], "input 3 bytes: A2212D\n", |fault| run(fault, &MARK));
}

/// What answers wrongly is found among the corners, by the model's issues too.
#[test]
fn faults_among_the_corners() {
    let found = |clean| {
        let subject = Faulty { clean, ..SOUND };
        corners::differ(&subject, cells::zeros(), |holder, call| holder.clean(call, AMPLE))
    };
    assert!(!found(SOUND.clean));
    assert!([yes, no, forgets_marks, forgets_bodies].into_iter().all(found));
}

#[test]
fn faults_in_a_refused_call() {
    let faults: [Asked; 4] = [
        refuses_nothing,
        |_, counts| answer(counts, 0) + 4,
        |call, counts| then(call, counts, (1, 1)),
        |call, _| model().clean(call, &mut []),
    ];
    for (call, number) in refused_calls() {
        assert_eq!(refused(&SOUND, call, number), None);
        found::each(faults, "difference: clean: ", |clean| {
            refused(&Faulty { clean, ..SOUND }, call, number)
        });
    }
}

#[test]
fn fewer_counts() {
    let subject = Faulty { clean: no, ..SOUND };
    asked::fewer_counts(&subject, |holder, call, room| holder.clean(call, room));
}
