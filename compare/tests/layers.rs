//! Length, gap and store of the model against 01's search in its own words: layers as maps from
//! states to least costs, with the Rust's tables, sets and shifts and without its encoder.

use std::collections::BTreeMap;

use compare::call::{Call, OPTIONS};
use compare::cells;
use compare::coding::Coder;
use compare::random::Random;
use compare::texts::{Alphabet, samples};
use isdb_text::{GraphicSet as G, InitialState, Shift, tables};

/// The sets of G0 to G3, the elements in GL and GR, narrow or not.
type State = ([G; 4], u8, u8, bool);
/// The set of a candidate, its code's bytes, and the size that it needs.
type Code = (Option<G>, usize, Option<bool>);
type Layer = BTreeMap<State, usize>;

fn has(table: fn(u8) -> Option<char>, c: char) -> bool {
    (0..=255).any(|code| table(code) == Some(c))
}

fn in_cells(table: fn(u8, u8) -> Option<char>, c: char) -> bool {
    oracle::cells::all().any(|(row, cell)| table(row, cell) == Some(c))
}

fn codes(c: char, annex_e: bool) -> Vec<Code> {
    if c == '\n' {
        return vec![(None, 1, None)];
    }
    if tables::is_non_spacing(c) {
        return vec![(Some(G::Kanji), 2, None)];
    }
    let (narrow, wide) = (Some(true), Some(false));
    let full = |code| tables::alphanumeric(code).map(tables::fullwidth);
    let all = [
        (has(tables::hiragana, c), (Some(G::Hiragana), 1, wide)),
        (has(tables::katakana, c), (Some(G::Katakana), 1, wide)),
        (has(tables::alphanumeric, c), (Some(G::Alphanumeric), 1, narrow)),
        (!annex_e && has(full, c), (Some(G::Alphanumeric), 1, wide)),
        (in_cells(tables::kanji, c), (Some(G::Kanji), 2, wide)),
        (in_cells(tables::additional_symbols, c), (Some(G::AdditionalSymbols), 2, wide)),
        (has(tables::jis_x0201_katakana, c), (Some(G::JisX0201Katakana), 1, narrow)),
        (c == ' ', (None, 1, narrow)),
        (c == '\u{3000}' && !annex_e, (None, 1, wide)),
    ];
    all.into_iter().filter(|(there, _)| *there).map(|(_, code)| code).collect()
}

/// The bytes of each way to read from the set, and the state after it. Where GL or GR has the
/// set nothing is written.
fn ways((sets, gl, gr, narrow): State, set: G) -> Vec<(usize, State)> {
    let mut ways = Vec::new();
    for n in 0..4 {
        let mut sets = sets;
        let held = std::mem::replace(&mut sets[usize::from(n)], set) == set;
        let before = if held { 0 } else { set.designation(n).len() };
        if gl == n || gr == n {
            ways.push((before, (sets, gl, gr, narrow)));
            continue;
        }
        let left = [Shift::Ls0, Shift::Ls1, Shift::Ls2, Shift::Ls3][usize::from(n)];
        ways.push((before + left.bytes().len(), (sets, n, gr, narrow)));
        if let 1.. = n {
            let right = [Shift::Ls1r, Shift::Ls2r, Shift::Ls3r][usize::from(n) - 1];
            ways.push((before + right.bytes().len(), (sets, gl, n, narrow)));
        }
        if let 2.. = n {
            ways.push((before + Shift::Ss2.bytes().len(), (sets, gl, gr, narrow)));
        }
    }
    if ways.iter().any(|(bytes, _)| *bytes == 0) {
        ways.retain(|(bytes, _)| *bytes == 0);
    }
    ways
}

/// Every state that a kept one reaches by writing the character, at its least cost.
fn reached(kept: &Layer, codes: &[Code]) -> Layer {
    let mut layer = Layer::new();
    for (&(sets, gl, gr, narrow), cost) in kept {
        for &(set, bytes, size) in codes {
            let wanted = size.unwrap_or(narrow);
            let state = (sets, gl, gr, wanted);
            let cost = cost + bytes + usize::from(wanted != narrow);
            for (more, state) in set.map_or(vec![(0, state)], |set| ways(state, set)) {
                let least = layer.entry(state).or_insert(usize::MAX);
                *least = (*least).min(cost + more);
            }
        }
    }
    layer
}

/// Length, gap, the numbers that the store must have, and the most states.
fn search(initial: InitialState, characters: &[Vec<Code>]) -> [usize; 4] {
    let (gl, gr) = initial.invocations();
    let mut kept = Layer::from([((initial.designations(), gl, gr, false), 0)]);
    let (mut before, mut numbers, mut states, mut floor) = (0, 0, 0, usize::MAX);
    for (place, codes) in characters.iter().enumerate() {
        let (dropped, stay) = split(reached(&kept, codes));
        let near = kept.len() + dropped.len() + stay.len();
        numbers = numbers.max(before + 4 * near);
        states = states.max(before + near);
        before += kept.len();
        let shortest = |codes: &Vec<Code>| codes.iter().map(|code| code.1).min().unwrap();
        let rest: usize = characters[place + 1..].iter().map(shortest).sum();
        floor = dropped.values().map(|cost| cost + rest).fold(floor, usize::min);
        kept = stay;
    }
    let length = *kept.values().min().unwrap();
    [length, length.saturating_sub(floor), numbers, states]
}

/// Those that cost over the layer's least cost + 10, and the others.
fn split(layer: Layer) -> (Layer, Layer) {
    let least = *layer.values().min().unwrap();
    layer.into_iter().partition(|(_, cost)| *cost > least + 10)
}

/// Marks before their base: the text's letters with their marks, each turned to marks first.
fn in_order(text: &str) -> Vec<char> {
    let mut order: Vec<char> = Vec::new();
    let mut base = 0;
    for c in text.chars() {
        if tables::is_non_spacing(c) {
            order.insert(base, c);
            base += 1;
        } else {
            base = order.len();
            order.push(c);
        }
    }
    order
}

fn compare(model: &mut Coder, cells: &[u16], text: &str, (initial, width): (u32, u32)) -> bool {
    let call = Call { cells, initial, width, input: text.as_bytes() };
    let Ok(coding) = model.code(&call) else { return false };
    let state = [InitialState::Si, InitialState::Caption][initial as usize];
    let order = in_order(text);
    let characters: Vec<_> = order.into_iter().map(|c| codes(c, width == 1)).collect();
    let found = [coding.bytes.len(), coding.gap, coding.numbers, coding.states];
    assert_eq!(search(state, &characters), found, "{text:?} {initial} {width}");
    true
}

#[test]
fn pairs_of_samples() {
    let (cells, mut model) = (cells::rusts(), Coder::default());
    let texts = (0..samples::count(2)).map(|index| samples::sequence(index, 2));
    let all = texts.flat_map(|text| OPTIONS.map(|options| (text.clone(), options)));
    let compared = all.filter(|(text, options)| compare(&mut model, cells, text, *options));
    assert!(compared.count() > 1_500);
}

#[test]
fn mixtures() {
    let (cells, mut model) = (cells::rusts(), Coder::default());
    let alphabet = Alphabet::new(cells);
    for index in 0..60 {
        let mut random = Random::new(7, index);
        let length = random.range(3, 40);
        let text = alphabet.mixture(&mut random, length);
        compare(&mut model, cells, &text, random.one_of(&OPTIONS));
    }
}

/// What a search that drops nothing finds is shorter by no more than the gap.
#[test]
fn the_gap_bounds() {
    let (cells, mut model, mut whole) =
        (cells::rusts(), Coder::default(), Coder::keeping(u32::MAX));
    let alphabet = Alphabet::new(cells);
    for index in 0..60 {
        let mut random = Random::new(8, index);
        let length = random.range(10, 60);
        let text = alphabet.mixture(&mut random, length);
        let (initial, width) = random.one_of(&OPTIONS);
        let call = Call { cells, initial, width, input: text.as_bytes() };
        let (Ok(coding), Ok(shortest)) = (model.code(&call), whole.code(&call)) else { continue };
        let (length, least) = (coding.bytes.len(), shortest.bytes.len());
        assert!(least <= length && length - coding.gap <= least, "{text:?}");
        assert_eq!((shortest.gap, shortest.dropped), (0, 0));
    }
}
