//! Catalogues whose keys are alike, any bytes among them: they are made by the model, and then
//! found in, removed from and added to.

use super::given::{any_bytes, numbers, title};
use super::pool::{Pool, held};
use super::{Found, Holder, Runs};
use crate::difference::Held;
use crate::entries::{Entries, LONGEST, MOST};
use crate::random::Random;
use crate::titles;

/// A key of a family, by its number.
type Family = fn(usize) -> Vec<u8>;

const FAMILIES: [Family; 12] = [
    // 255 bytes that differ in the last ones, in the last two by letters, in the first ones, in one
    // somewhere.
    |n| [&[b'A'; LONGEST - 2][..], &(n as u16).to_be_bytes()].concat(),
    |n| [&[b'A'; LONGEST - 2][..], &pair(n)].concat(),
    |n| [&(n as u16).to_be_bytes()[..], &[b'A'; LONGEST - 2]].concat(),
    |n| (0..LONGEST).map(|at| if at == n % LONGEST { b'B' } else { b'A' }).collect(),
    // Prefixes of one another: of one letter, of bytes that rise.
    |n| vec![b'A'; n % (LONGEST + 1)],
    |n| (0..n % (LONGEST + 1)).map(|at| at as u8).collect(),
    // Zeros, alone and behind a byte, which only the length tells from what is behind a key.
    |n| vec![0; n % (LONGEST + 1)],
    |n| [&[b'A'][..], &vec![0; n % LONGEST]].concat(),
    // All equal; empty; one of two; short letters.
    |_| vec![b'A'; LONGEST],
    |_| vec![],
    |n| [&[b'A'; LONGEST - 1][..], &[b'A' + (n % 2) as u8]].concat(),
    |n| pair(n)[..n % 3].to_vec(),
];

/// Two letters.
fn pair(n: usize) -> [u8; 2] {
    let letter = |n: usize| b"ABCDEFGHIJKLMNOPQRSTUVWXYZabcdefghijklmnopqrstuvwxyz"[n % 52];
    [letter(n / 52), letter(n)]
}

/// How many entries there are; now and then as many as there can be.
const SIZES: [usize; 8] = [1, 2, 3, 4, 6, 10, 30, 100];
const FULL: u64 = 60;

/// How many calls a catalogue gets.
const CALLS: usize = 20;

/// One catalogue for four random sequences.
pub fn alike(runs: &Runs) -> Found {
    let titles = titles::all();
    runs.each(runs.amount.random / 4, |holder, index| {
        let mut random = Random::new(runs.seed ^ 0xA11CE, index);
        let size = random.one_of(&SIZES);
        let size = if index.is_multiple_of(FULL) { MOST } else { size };
        let family = FAMILIES.get(index as usize % (FAMILIES.len() + 1));
        let key = |random: &mut Random| one_key(random, family, size);
        let keys: Vec<_> = (0..size).map(|_| key(&mut random)).collect();
        let entries: Entries = numbers(&mut random, size).into_iter().zip(keys).collect();
        holder.begin(index, entries.store());
        let pool = Pool::new(&mut random, &titles, 3, 9);
        (0..CALLS).try_for_each(|_| {
            let key = key(&mut random);
            call(holder, &mut random, &pool, &key)
        })
    })
}

/// A key of the family, or, where there is none, of any bytes.
fn one_key(random: &mut Random, family: Option<&Family>, size: usize) -> Vec<u8> {
    let n = random.below(2 * size);
    family.map_or_else(|| any_bytes(random, n % (LONGEST + 1)), |family| family(n))
}

/// The key is sought, or a title that has it added, if one has; or an entry is removed; or any call.
fn call(holder: &mut Holder, random: &mut Random, pool: &Pool, key: &[u8]) -> Held {
    match random.below(4) {
        0 => holder.find(key, 3),
        1 => match title(random, key) {
            Some(title) => {
                let number = random.number() as u32;
                pool.add_title(holder, random, &title, number)
            }
            None => pool.add(holder, random),
        },
        2 => {
            let held = holder.entries().ok().and_then(|entries| held(random, entries));
            holder.remove(held.map_or(0, |(number, _)| number))
        }
        _ => pool.call(holder, random, [1, 1, 2]),
    }
}
