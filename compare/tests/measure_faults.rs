//! A subject with a fault in `arib_measure`, or in `arib_decode` where its buffers are just as large
//! as `arib_measure` says, is found out.

mod asked;
mod corners;
mod faulty;
mod found;

use asked::{GOOD, MARK, TRUNCATED, call, change, leave, let_through, refused, refused_calls};
use compare::call::Call;
use compare::cells;
use compare::decode::{AMPLE, Holder};
use compare::model::{ISSUE, Reading};
use compare::runs::Worker;
use compare::subject::{Lent, model};
use faulty::{Asked, Faulty, SOUND};

/// The first difference on this input, held against the Rust.
fn run(measure: Asked, input: &[u8]) -> Option<String> {
    asked::read(&Faulty { measure, ..SOUND }, input)
}

/// The model's answer, with another number in one of the counts, if it is lent.
fn then(call: Call, counts: &mut [usize], (index, n): (usize, usize)) -> u32 {
    let number = model().measure(call, counts);
    change(counts, index, n);
    number
}

/// Leaves as many counts as decoding does.
fn five(call: Call, counts: &mut [usize]) -> u32 {
    let mut reading = Reading::default();
    call.read(&mut reading);
    leave(counts, reading.counts())
}

/// Puts the questions, and then leaves what is counted of the model's reading.
fn counted(call: Call, counts: &mut [usize], count: fn(&Reading) -> [usize; 3]) -> u32 {
    let number = model().measure(call, counts);
    if number == 0 {
        let mut reading = Reading::default();
        call.read(&mut reading);
        let [text, issues, charge] = count(&reading);
        leave(counts, [0, text, issues, charge]);
    }
    number
}

/// Where marks stand that waited at the end: their issue is the last, and no newline is behind it.
fn waited(reading: &Reading) -> Option<usize> {
    let &[_, kind, .., position] = reading.issues.last()?;
    let place = position as usize;
    (kind == 12 && !reading.text[place..].contains(&b'\n')).then_some(place)
}

/// The text without the marks that waited at the end.
fn before_marks(reading: &Reading) -> usize {
    waited(reading).unwrap_or(reading.text.len())
}

/// The issues without theirs.
fn but_for_marks(reading: &Reading) -> usize {
    reading.issues.len() - waited(reading).map_or(0, |_| 1)
}

fn marks_not_written(call: Call, counts: &mut [usize]) -> u32 {
    counted(call, counts, |r| [before_marks(r), r.issues.len(), r.charge])
}

fn marks_not_reported(call: Call, counts: &mut [usize]) -> u32 {
    counted(call, counts, |r| [r.text.len(), but_for_marks(r), r.charge])
}

fn forgets_marks(call: Call, counts: &mut [usize]) -> u32 {
    counted(call, counts, |r| [before_marks(r), but_for_marks(r), r.charge])
}

/// The text in characters.
fn characters(call: Call, counts: &mut [usize]) -> u32 {
    counted(call, counts, |r| {
        let text = str::from_utf8(&r.text).expect("UTF-8");
        [text.chars().count(), r.issues.len(), r.charge]
    })
}

/// The issues in numbers.
fn numbers(call: Call, counts: &mut [usize]) -> u32 {
    counted(call, counts, |r| [r.text.len(), ISSUE * r.issues.len(), r.charge])
}

/// A byte for each body that was too deep or over the budget, and so was not run.
fn charges_what_does_not_run(call: Call, counts: &mut [usize]) -> u32 {
    counted(call, counts, |r| {
        let not_run = r.issues.iter().filter(|[_, kind, ..]| *kind == 10).count();
        [r.text.len(), r.issues.len(), r.charge + not_run]
    })
}

/// What remains of the budget.
fn charges_the_rest(call: Call, counts: &mut [usize]) -> u32 {
    let number = model().measure(call, counts);
    if let [_, _, _, charge, ..] = counts {
        *charge = 64 * call.input.len() + 4_096 - *charge;
    }
    number
}

#[test]
fn no_fault() {
    for input in [&GOOD[..], &TRUNCATED, &MARK] {
        assert_eq!(run(SOUND.measure, input), None);
    }
}

#[test]
fn faults_where_there_is_no_issue() {
    let faults: [Asked; 14] = [
        characters,
        charges_the_rest,
        five,
        |call, counts| then(call, counts, (0, 1)),
        |call, counts| then(call, counts, (1, 5)),
        |call, counts| then(call, counts, (1, 7)),
        |call, counts| then(call, counts, (2, 1)),
        |call, counts| then(call, counts, (3, 1)),
        |call, counts| then(call, counts, (4, 0)),
        |call, counts| then(call, counts, (5, 0)),
        |call, counts| then(call, counts, (6, 0)),
        |call, counts| model().measure(call, counts) + 8,
        |_, counts| leave(counts, [0; 4]),
        |_, _| 0,
    ];
    found::each(faults, "input 2 bytes: A2A4\n", |fault| run(fault, &GOOD));
}

#[test]
fn faults_where_there_is_an_issue() {
    let faults: [Asked; 5] = [
        characters,
        numbers,
        |call, counts| then(call, counts, (2, 0)),
        |call, counts| then(call, counts, (2, 2)),
        |call, counts| model().measure(call, counts) + 9,
    ];
    found::each(faults, "input 2 bytes: 24A2\n", |fault| run(fault, &TRUNCATED));
}

#[test]
fn marks_that_are_forgotten() {
    let faults: [Asked; 3] = [marks_not_written, marks_not_reported, forgets_marks];
    for fault in faults {
        assert_eq!(run(fault, &GOOD), None);
        assert_eq!(run(fault, &[0xA2, 0x21, 0x2D, 0x0D]), None);
    }
    found::each(faults, "input 3 bytes: A2212D\n", |fault| run(fault, &MARK));
}

/// What answers wrongly is found among the corners, by the model's reading too.
#[test]
fn faults_among_the_corners() {
    let found = |measure| {
        let subject = Faulty { measure, ..SOUND };
        corners::differ(&subject, cells::zeros(), |holder, call| holder.measure(call, AMPLE))
    };
    let faults: [Asked; 7] = [
        marks_not_written,
        marks_not_reported,
        forgets_marks,
        characters,
        numbers,
        charges_what_does_not_run,
        charges_the_rest,
    ];
    assert!(!found(SOUND.measure));
    assert!(faults.into_iter().all(found));
}

#[test]
fn faults_in_a_refused_call() {
    let faults: [Asked; 8] = [
        |call, counts| model().measure((1..=3).fold(call, let_through), counts),
        |_, counts| leave(counts, [0; 4]) + 4,
        |call, counts| then(call, counts, (0, 1)),
        |call, counts| then(call, counts, (1, 6)),
        |call, counts| then(call, counts, (2, 1)),
        |call, counts| then(call, counts, (3, 1)),
        |call, counts| then(call, counts, (4, 0)),
        |call, _| model().measure(call, &mut []),
    ];
    for (call, number) in refused_calls() {
        assert_eq!(refused(&SOUND, call, number), None);
        found::each(faults, "difference: measure: ", |measure| {
            refused(&Faulty { measure, ..SOUND }, call, number)
        });
    }
}

/// Each question by itself is missed on the calls that it refuses.
#[test]
fn a_question_that_is_not_put() {
    let faults: [Asked; 3] = [
        |call, counts| model().measure(let_through(call, 1), counts),
        |call, counts| model().measure(let_through(call, 2), counts),
        |call, counts| model().measure(let_through(call, 3), counts),
    ];
    for (call, number) in refused_calls() {
        let measure = faults[number as usize - 1];
        found::each([measure], "difference: measure: refusal ", |measure| {
            refused(&Faulty { measure, ..SOUND }, call, number)
        });
    }
}

#[test]
fn fewer_counts() {
    let subject = Faulty { measure: characters, ..SOUND };
    asked::fewer_counts(&subject, |holder, call, room| holder.measure(call, room));
}

/// The same of decoding, in exact rooms: a program that lends four counts is left four.
#[test]
fn fewer_counts_of_decoding() {
    let subject = Faulty { reading: |lent, _| change(lent.counts, 1, 7), ..SOUND };
    asked::fewer_counts(&subject, |holder, call, room| holder.counted(call, room));
}

type Fault = fn(&mut Lent, &mut u32);

/// The first difference of decoding in exact rooms, and with less: あ, Truncated.
fn exact(reading: Fault) -> Option<String> {
    let subject = Faulty { reading, ..SOUND };
    let (mut holder, call) = (Holder::new(&subject), call(&TRUNCATED));
    holder.read(call);
    asked::words(holder.exact(call))
}

/// Another number where this one is answered.
fn instead(number: &mut u32, of: u32, other: u32) {
    if *number == of {
        *number = other;
    }
}

#[test]
fn faults_in_exact_rooms() {
    assert_eq!(exact(|_, _| {}), None);
    let faults: [Fault; 6] = [
        |_, number| instead(number, 0, 8),
        |_, number| instead(number, 0, 9),
        |_, number| instead(number, 8, 0),
        |_, number| instead(number, 8, 9),
        |_, number| instead(number, 9, 0),
        |_, number| instead(number, 9, 8),
    ];
    found::each(faults, "input 2 bytes: 24A2\n", exact);
}

/// Takes a remainder of so many numbers for an issue.
fn takes(lent: &Lent, number: &mut u32, remainder: usize) {
    if lent.issues.len() % ISSUE == remainder {
        instead(number, 9, 0);
    }
}

/// Every remainder comes round among the corners.
#[test]
fn a_remainder_that_is_taken_for_an_issue() {
    let found = |reading: Fault| {
        let subject = Faulty { reading, ..SOUND };
        corners::differ(&subject, cells::rusts(), |holder, call| holder.exact(call))
    };
    let faults: [Fault; ISSUE] = [
        |lent, number| takes(lent, number, 0),
        |lent, number| takes(lent, number, 1),
        |lent, number| takes(lent, number, 2),
        |lent, number| takes(lent, number, 3),
        |lent, number| takes(lent, number, 4),
    ];
    assert!(!found(|_, _| {}));
    assert!(faults.into_iter().all(found));
}
