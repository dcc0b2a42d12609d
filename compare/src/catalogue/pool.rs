//! Calls at random, of titles and numbers of which there are few, so that keys are doubled and
//! numbers collide.

use super::given::{self, ISSUE, LENGTHS, MACRO, PRIVATE_USE, any_bytes, letters, repeated};
use super::{Holder, Title};
use crate::call::{Call, LONGEST, OPTIONS};
use crate::difference::Held;
use crate::entries::{self, Entries};
use crate::random::Random;
use crate::{cells, inputs};

/// Options that question 2 refuses.
const WRONG: [(u32, u32); 3] = [(2, 0), (1, 256), (u32::MAX, u32::MAX)];

/// What a sequence draws from.
pub struct Pool<'a> {
    /// Those of data/titles.hex.
    good: &'a [Vec<u8>],
    titles: Vec<Vec<u8>>,
    numbers: Vec<u32>,
}

impl<'a> Pool<'a> {
    /// So many titles and numbers.
    pub fn new(random: &mut Random, good: &'a [Vec<u8>], titles: usize, numbers: usize) -> Self {
        let titles = (0..titles).map(|_| title(random, good)).collect();
        Pool { good, titles, numbers: given::numbers(random, numbers) }
    }

    /// A call of one of the three kinds, with these weights.
    pub fn call(&self, holder: &mut Holder, random: &mut Random, weights: [usize; 3]) -> Held {
        let [adds, removals, finds] = weights;
        match random.below(adds + removals + finds) {
            n if n < adds => self.add(holder, random),
            n if n < adds + removals => self.remove(holder, random),
            _ => self.find(holder, random),
        }
    }

    /// Adds a title, which is now and then refused.
    pub fn add(&self, holder: &mut Holder, random: &mut Random) -> Held {
        let (input, number) = (self.title(random), self.absent(holder, random));
        self.add_title(holder, random, &input, number)
    }

    /// Adds this title, with any options, table, room and counts.
    pub fn add_title(
        &self,
        holder: &mut Holder,
        random: &mut Random,
        input: &[u8],
        number: u32,
    ) -> Held {
        let cells = match random.below(40) {
            0 => &cells::rusts()[1..],
            1..=5 => cells::zeros(),
            _ => cells::rusts(),
        };
        let options = if random.once_in(40) { &WRONG[..] } else { &OPTIONS };
        let (initial, width) = random.one_of(options);
        let beyond = match random.below(20) {
            0 => -1,
            1 => -(random.range(1, 60) as isize),
            2..=10 => 0,
            11..=18 => random.range(1, 20) as isize,
            _ => 300,
        };
        let call = Call { cells, initial, width, input };
        holder.add(Title { call, number, beyond, counts: random.below(6) })
    }

    /// Removes a number that is mostly present.
    pub fn remove(&self, holder: &mut Holder, random: &mut Random) -> Held {
        let held = holder.entries().ok().and_then(|entries| held(random, entries));
        let number = held.filter(|_| !random.once_in(5)).map(|(number, _)| number);
        let number = number.unwrap_or_else(|| random.one_of(&self.numbers));
        holder.remove(number)
    }

    /// Finds a key that is held, one that is like it, or another.
    pub fn find(&self, holder: &mut Holder, random: &mut Random) -> Held {
        let key = match holder.entries() {
            Ok(entries) => key(random, entries),
            Err(_) => key(random, &Entries::default()),
        };
        holder.find(&key, random.below(6))
    }

    /// Mostly one of the pool's.
    fn title(&self, random: &mut Random) -> Vec<u8> {
        let mut title = random_of(random, &self.titles).to_vec();
        match random.below(30) {
            0 => return inputs::random(random, self.good),
            1 => title.extend(ISSUE),
            2 => title.extend(PRIVATE_USE),
            3 => title = repeated(random.once_in(2), random.range(250, 260)),
            4 if random.once_in(8) => title.resize(LONGEST + 1, 0x0D),
            _ => {}
        }
        title
    }

    /// One of the pool's numbers, mostly absent.
    fn absent(&self, holder: &Holder, random: &mut Random) -> u32 {
        let held = |number| holder.entries().is_ok_and(|held| held.key(number).is_some());
        let number = random.one_of(&self.numbers);
        if random.once_in(4) || !held(number) {
            return number;
        }
        // From a place at random on.
        let at = random.below(self.numbers.len());
        let (before, after) = self.numbers.split_at(at);
        after.iter().chain(before).copied().find(|&other| !held(other)).unwrap_or(number)
    }
}

/// A title that is mostly accepted: letters in either width, few or as many as a key may have, a
/// broadcast title in either width, kana, a macro's, spaces, nothing.
fn title(random: &mut Random, good: &[Vec<u8>]) -> Vec<u8> {
    let narrow = random.once_in(2);
    match random.below(13) {
        0..=3 => {
            let count = random.range(0, 2);
            let of: Vec<u8> = (0..count).map(|_| random.one_of(b"AB")).collect();
            letters(narrow, &of)
        }
        4 => {
            let last = random.byte(b'A', b'C');
            let count = random.range(252, entries::LONGEST - 1);
            letters(narrow, &[&b"A".repeat(count)[..], &[last]].concat())
        }
        5 | 6 => random_of(random, good).to_vec(),
        7 | 8 => [&[0x89], random_of(random, good)].concat(),
        9 => vec![0xA2; random.range(1, 85)],
        10 => MACRO.to_vec(),
        11 => [0x20, 0x0D].repeat(random.below(3)),
        _ => vec![],
    }
}

fn random_of<'a>(random: &mut Random, list: &'a [Vec<u8>]) -> &'a [u8] {
    &list[random.below(list.len())]
}

/// One of the entries, if there is any.
pub fn held<'a>(random: &mut Random, entries: &'a Entries) -> Option<(u32, &'a [u8])> {
    let at = random.below(entries.len().max(1));
    entries.numbers().nth(at).zip(entries.keys().nth(at))
}

/// A key that is held; the same with a byte less, a byte more or another byte; any bytes.
pub fn key(random: &mut Random, entries: &Entries) -> Vec<u8> {
    let mut key = held(random, entries).map_or(b"A".to_vec(), |(_, key)| key.to_vec());
    match random.below(10) {
        0..=4 => {}
        5 => drop(key.pop()),
        6 => key.push(random.one_of(&[0, b'A', 0xFF])),
        7 if !key.is_empty() => {
            let at = random.below(key.len());
            key[at] ^= random.byte(1, 0xFF);
        }
        _ => {
            let far = usize::from(random.once_in(20));
            let length = random.one_of(&LENGTHS[..LENGTHS.len() - 1 + far]);
            key = any_bytes(random, length);
        }
    }
    key
}
