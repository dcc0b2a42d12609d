//! Admissible codings: their bytes by isdb-text, what stations write, and what may be written.

use compare::arrangement::{Arrangement, Contents, Control, Station, Way};
use compare::arrangements::Holder;
use compare::call::{Call, LONGEST, under_all};
use compare::cells;
use compare::coding::{Candidate, Coder};
use compare::random::Random;
use compare::runs::Worker;
use compare::subject::model;
use compare::tally::Sum;
use compare::texts::Alphabet;
use isdb_text::Shift;
use oracle::{hex, sets};

/// Under Si and CharacterSize, with the Rust's table.
fn call(text: &str) -> Call<'_> {
    Call { cells: cells::rusts(), initial: 0, width: 0, input: text.as_bytes() }
}

fn choices(text: &str) -> Vec<Vec<Candidate>> {
    Coder::default().choices(&call(text)).unwrap()
}

fn bytes(digits: &str) -> Vec<u8> {
    let mut bytes = vec![];
    hex::parse(&mut bytes, digits).unwrap();
    bytes
}

/// All 128 designations and seven locking shifts are isdb-text's.
#[test]
fn controls_are_the_rusts() {
    let shifts =
        [Shift::Ls0, Shift::Ls1, Shift::Ls2, Shift::Ls3, Shift::Ls1r, Shift::Ls2r, Shift::Ls3r];
    let designations = sets::all().flat_map(|set| (0..4).map(move |g| set.designation(g)));
    let shifts = shifts.into_iter().map(|shift| shift.bytes().to_vec());
    let rusts: Vec<_> = designations.chain(shifts).chain([vec![0x89], vec![0x8A]]).collect();
    let ours: Vec<_> = Control::all().into_iter().map(Control::bytes).collect();
    assert_eq!(ours, rusts);
    let single = |element| Way::Single { element, right: false }.shift();
    assert_eq!([single(2), single(3)], [Shift::Ss2.bytes(), Shift::Ss3.bytes()]);
}

/// Random stations write every control and every way, controls at either end too.
#[test]
fn stations_write_everything() {
    let alphabet = Alphabet::new(cells::rusts());
    let (mut held, mut ends, mut lengths) = (Contents::default(), [0; 2], [usize::MAX, 0]);
    for index in 0..3_000 {
        let mut random = Random::new(7, index);
        let text = alphabet.mixture(&mut random, 6);
        let Ok(choices) = Coder::default().choices(&call(&text)) else { continue };
        let coding = Station::any(&mut random).arrange(&mut random, index % 2 == 1, &choices);
        held.add(&coding.contents);
        ends[0] += u64::from([0x89, 0x8A].contains(&coding.bytes[0]));
        ends[1] += u64::from([0x89, 0x8A].contains(coding.bytes.last().unwrap()));
        lengths = [lengths[0].min(coding.bytes.len()), lengths[1].max(coding.bytes.len())];
    }
    let Contents { designations, elements, locking, sizes, characters } = held;
    let counts = [&designations[..], &elements, &locking, &sizes, &characters, &ends];
    assert!(counts.concat().into_iter().all(|count| count > 20), "{counts:?}");
    assert!(lengths[0] < 12 && lengths[1] > 120, "{lengths:?}");
}

/// As things stand at the start, after MSZ, and with the Alphanumeric set in G1 and G3.
#[test]
fn ways() {
    let [wide, narrow, kana] = ["Ａ", "A", "あ"].map(|text| choices(text)[0].clone());
    let mut coding = Arrangement::new(false);
    let (right, single) = (Way::Gr, |element, right| Way::Single { element, right });
    assert_eq!(coding.ways(&kana[0]), [right, single(2, false), single(2, true)]);
    assert_eq!(coding.ways(&wide[0]), []);
    coding.control(Control::Designation(1, 3));
    assert_eq!(coding.ways(&wide[0]), [single(3, false), single(3, true)]);
    assert_eq!(coding.ways(&narrow[0]), []);
    coding.control(Control::Size(true));
    coding.control(Control::LockingGl(1));
    assert_eq!(coding.ways(&narrow[0]), [Way::Gl, single(3, false), single(3, true)]);
    assert_eq!(coding.ways(&wide[0]), []);
    assert_eq!(coding.ways(&kana[0]), []);
    coding.control(Control::Size(false));
    coding.control(Control::LockingGr(3));
    assert_eq!(coding.ways(&wide[0]), [Way::Gl, Way::Gr, single(3, false), single(3, true)]);
    coding.write(&wide[0], single(3, true));
    coding.write(&kana[0], single(2, false));
    assert_eq!(coding.bytes, bytes("1B2B4A890E8A1B7C1DC11922"));
}

/// Codings of one text by many stations are held by the model, each another.
#[test]
fn one_text() {
    let text = "ＮＨＫニュース 7:00";
    let choices = choices(text);
    let (mut holder, mut random) = (Holder::new(model()), Random::new(1, 0));
    let mut codings: Vec<_> = (0..50)
        .map(|_| {
            let coding = Station::any(&mut random).arrange(&mut random, false, &choices);
            holder.hold_at_every_length(call(text), &coding).unwrap();
            holder.against_gap(call(text), &coding).unwrap();
            coding
        })
        .collect();
    holder.together(0, call(text), [&codings[0], &codings[1]]).unwrap();
    assert_eq!((holder.tally.codings, holder.tally.together), (50, 1));
    codings.sort_by_key(|coding| coding.bytes.clone());
    codings.dedup_by_key(|coding| coding.bytes.clone());
    assert_eq!(codings.len(), 50);
}

/// A text with a private-use character is added by neither coding.
#[test]
fn private_use() {
    let text = "\u{E290}";
    let (mut holder, mut random) = (Holder::new(model()), Random::new(2, 0));
    for call in under_all(cells::rusts(), text.as_bytes()) {
        let choices = holder.choices(call).unwrap();
        let [first, second] = [(); 2]
            .map(|()| Station::any(&mut random).arrange(&mut random, call.initial == 1, &choices));
        holder.hold_at_every_length(call, &first).unwrap();
        holder.together(0, call, [&first, &second]).unwrap();
    }
    assert_eq!(holder.tally.together, 0);
    assert_eq!(holder.tally().keys[11], 4 * 3);
}

/// What is no coding of the text is a difference; one byte too many is 3.
#[test]
fn differences() {
    let mut holder = Holder::new(model());
    let mut coding = Arrangement::new(false);
    coding.write(&choices("あ")[0][0], Way::Gr);
    holder.hold(call("あ"), &coding).unwrap();
    let words = holder.hold(call("い"), &coding).unwrap_err().to_string();
    assert!(words.contains("an admissible coding read\ninput 1 bytes: A2\n"), "{words}");
    (1..LONGEST).for_each(|_| coding.control(Control::Size(true)));
    holder.hold(call("あ"), &coding).unwrap();
    coding.control(Control::Size(true));
    holder.too_long(call("あ"), &coding).unwrap();
    let words = holder.against_gap(call("ああ"), &Arrangement::new(false)).unwrap_err().to_string();
    assert!(words.contains("difference: the gap\n"), "{words}");
}
