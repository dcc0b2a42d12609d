//! Each call on damaged stores: the model says which are of the form.

use super::given;
use super::pool::{Pool, held, key};
use super::{Found, Holder, KINDS, Runs, damage};
use crate::difference::Held;
use crate::entries::{Entries, HEAD, MOST, PLACE};
use crate::random::Random;
use crate::tally::Sum;
use crate::titles;

/// How many entries there are before the damage.
const SIZES: [usize; 5] = [0, 1, 2, 64, MOST];

/// Of the smallest catalogues each byte of the counts and the first places is changed.
const SMALL: u64 = 3;
const BYTES: u64 = (HEAD + 3 * PLACE) as u64;

/// A bit of it, or all of them.
const CHANGES: [u8; 3] = [0x01, 0x80, 0xFF];

/// Every byte of small catalogues, then every kind of damage to catalogues of each size.
pub fn damaged(runs: &Runs) -> Found {
    let titles = titles::all();
    let every = SMALL * BYTES * CHANGES.len() as u64;
    let mut sum = runs.each(every, |holder, index| {
        let entries = small((index % SMALL) as usize);
        let mut store = entries.store();
        store[(index / SMALL % BYTES) as usize] ^= CHANGES[(index / SMALL / BYTES) as usize];
        let mut random = Random::new(runs.seed ^ 0xB17E, index);
        holder.begin(index, store);
        each_call(holder, &mut random, &titles, &entries)
    })?;
    sum.add(&runs.each(runs.amount.random, |holder, index| {
        let mut random = Random::new(runs.seed ^ 0xDA3A, index);
        let entries = given::entries(&mut random, SIZES[index as usize % SIZES.len()]);
        let store = damage(&mut random, &entries, index as usize / SIZES.len() % KINDS);
        holder.begin(index, store);
        each_call(holder, &mut random, &titles, &entries)
    })?);
    Ok(sum)
}

/// None, one or two entries.
fn small(count: usize) -> Entries {
    let all = [(0x0102_0304, b"AB".to_vec()), (0x0102_0405, b"A".to_vec())];
    all.into_iter().take(count).collect()
}

/// A find, a removal and an add on the damaged store, by what the entries were before.
fn each_call(
    holder: &mut Holder,
    random: &mut Random,
    titles: &[Vec<u8>],
    entries: &Entries,
) -> Held {
    let (pool, store) = (Pool::new(random, titles, 2, 4), holder.store().to_vec());
    holder.find(&key(random, entries), random.below(6))?;
    let present = held(random, entries).filter(|_| !random.once_in(4));
    match present {
        Some((number, _)) => holder.remove(number)?,
        None => pool.remove(holder, random)?,
    }
    if holder.store() != store {
        holder.load(store);
    }
    pool.add(holder, random)
}
