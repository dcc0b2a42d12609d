//! The sides of a measurement.

use std::hint::black_box;

use isdb_text::{decode_with, encode_with};

use super::bookmark::{go_on, half, set};
use super::{Ready, Work};
use crate::call::Call;
use crate::entries::MOST;
use crate::key::key;
use crate::model::ISSUE;
use crate::subject::{CatalogueLent, CodingLent, Lent, Subject};

/// Who does the work of a case.
#[derive(Clone, Copy, PartialEq, Eq)]
pub enum Side {
    /// isdb-text. It has no call for keys, for clean titles or for measuring: it decodes, and the
    /// key is made of its text, or its list of issues is empty or not.
    Rust,
    /// The subject, question 1 included. Of the crate's cases the crate in rust/.
    Subject,
    /// The subject's `arib_decode`, question 1 included, in buffers just as large as
    /// `arib_measure` says.
    Exact,
    /// The subject's `arib_key` of the titles that are added to a catalogue, in the same buffer; of
    /// keys that are sought nothing.
    Key,
    /// The subject's `arib_measure` of what is before a bookmark that is set, or `arib_decode` of
    /// what is behind one that is returned to, in a buffer that just suffices.
    Half,
    /// `arib_decode` with no buffers and an option that question 2 refuses: question 1 alone.
    Question,
}

/// What does a case's work once.
pub type Runner<'a> = Box<dyn FnMut() + 'a>;

impl Side {
    pub fn named(name: &str) -> Option<Side> {
        match name {
            "rust" => Some(Side::Rust),
            "subject" => Some(Side::Subject),
            "exact" => Some(Side::Exact),
            "key" => Some(Side::Key),
            "half" => Some(Side::Half),
            "question" => Some(Side::Question),
            _ => None,
        }
    }

    /// What takes the inputs once. What is lent is made here, what the Rust answers and its layers
    /// within each call.
    pub fn runner<'a>(self, subject: &'a dyn Subject, case: &'a Ready) -> Runner<'a> {
        match self {
            Side::Rust => rust(case),
            Side::Subject => own(subject, case),
            Side::Exact => exact(subject, case),
            Side::Key => keyed(subject, case),
            Side::Half => half(subject, case),
            Side::Question => question(subject, case),
        }
    }
}

fn rust(case: &Ready) -> Runner<'_> {
    let options = case.call.options();
    let (decoding, coding) = (options.into(), options.into());
    match case.work {
        Work::Decode(_) | Work::Measure | Work::Crate => {
            each(&case.inputs, move |input| drop(black_box(decode_with(input, &decoding))))
        }
        Work::Key(_) => each(&case.inputs, move |input| {
            drop(black_box(key(&decode_with(input, &decoding).text)));
        }),
        Work::Clean => each(&case.inputs, move |input| {
            black_box(decode_with(input, &decoding).issues.is_empty());
        }),
        Work::Code => {
            let text = |input| str::from_utf8(input).expect("a text");
            let texts: Vec<&str> = case.inputs.iter().map(|input| text(input)).collect();
            Box::new(move || {
                texts.iter().for_each(|text| drop(black_box(encode_with(text, &coding))));
            })
        }
        Work::Find(_) | Work::AddRemove(_) => panic!("the Rust has no catalogue"),
        Work::Set | Work::Return => panic!("the Rust has no bookmarks"),
    }
}

fn own<'a>(subject: &'a dyn Subject, case: &'a Ready) -> Runner<'a> {
    let ([first, second], call) = (case.rooms(), case.call);
    match case.work {
        Work::Decode(_) => {
            let (mut text, mut issues) = (vec![0; first], vec![0; second]);
            each(&case.inputs, move |input| {
                let lent = Lent { text: &mut text, issues: &mut issues, counts: &mut [0; 5] };
                assert_eq!(subject.decode(Call { input, ..call }, lent), 0);
            })
        }
        Work::Key(_) => keyed(subject, case),
        Work::Clean => each(&case.inputs, move |input| {
            assert_eq!(subject.clean(Call { input, ..call }, &mut [0; 2]), 0);
        }),
        Work::Measure => each(&case.inputs, move |input| {
            assert_eq!(subject.measure(Call { input, ..call }, &mut [0; 4]), 0);
        }),
        Work::Crate => by_crate(case),
        Work::Code => {
            let (mut store, mut coding) = (vec![0; first], vec![0; second]);
            each(&case.inputs, move |input| {
                let (store, coding) = (&mut store[..], &mut coding[..]);
                let lent = CodingLent { store, coding, counts: &mut [0; 3] };
                assert_eq!(subject.encode(Call { input, ..call }, lent), 0);
            })
        }
        Work::Find(stock) => {
            let store = stock.entries(MOST).store();
            each(&case.inputs, move |input| {
                assert_eq!(subject.find(&store, input, &mut [0; 3]), 0);
            })
        }
        Work::AddRemove(stock) => {
            let (mut store, mut key) = (stock.entries(MOST - 1).store(), vec![0; first]);
            each(&case.inputs, move |input| {
                let lent = CatalogueLent { store: &mut store, key: &mut key, counts: &mut [0; 3] };
                assert_eq!(subject.add(Call { input, ..call }, 0, lent), 0);
                assert_eq!(subject.remove(&mut store, 0), 0);
            })
        }
        Work::Set => set(subject, case),
        Work::Return => go_on(subject, case),
    }
}

fn keyed<'a>(subject: &'a dyn Subject, case: &'a Ready) -> Runner<'a> {
    let ([first, _], call) = (case.rooms(), case.call);
    if matches!(case.work, Work::Find(_)) {
        return Box::new(|| {});
    }
    let mut buffer = vec![0; first];
    each(&case.inputs, move |input| {
        assert_eq!(subject.key(Call { input, ..call }, &mut buffer, &mut [0; 3]), 0);
    })
}

/// The crate in rust/.
#[cfg(feature = "library")]
fn by_crate(case: &Ready) -> Runner<'_> {
    let options = crate::binding::decode_options(&case.call);
    each(&case.inputs, move |input| drop(black_box(ours::decode_with(input, &options))))
}

#[cfg(not(feature = "library"))]
fn by_crate(_: &Ready) -> Runner<'_> {
    unreachable!("no table has its cases")
}

fn exact<'a>(subject: &'a dyn Subject, case: &'a Ready) -> Runner<'a> {
    let call = case.call;
    let measured = |input: &Vec<u8>| {
        let mut counts = [0; 4];
        assert_eq!(subject.measure(Call { input, ..call }, &mut counts), 0);
        let [_, text, issues, _] = counts;
        (vec![0; text], vec![0; ISSUE * issues])
    };
    let mut buffers: Vec<_> = case.inputs.iter().map(measured).collect();
    Box::new(move || {
        for (input, (text, issues)) in case.inputs.iter().zip(&mut buffers) {
            let lent = Lent { text, issues, counts: &mut [0; 5] };
            assert_eq!(subject.decode(Call { input, ..call }, lent), 0);
        }
    })
}

fn question<'a>(subject: &'a dyn Subject, case: &'a Ready) -> Runner<'a> {
    let call = Call { initial: 2, ..case.call };
    each(&case.inputs, move |_| {
        let lent = Lent { text: &mut [], issues: &mut [], counts: &mut [0; 5] };
        assert_eq!(subject.decode(call, lent), 2);
    })
}

/// Does it with each input in turn.
fn each<'a>(inputs: &'a [Vec<u8>], mut work: impl FnMut(&'a Vec<u8>) + 'a) -> Runner<'a> {
    Box::new(move || inputs.iter().for_each(&mut work))
}
