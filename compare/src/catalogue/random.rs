//! Random sequences of calls: short ones, and long ones up to a full catalogue.

use super::pool::Pool;
use super::{Found, Holder, KINDS, Runs, damage, given};
use crate::difference::Held;
use crate::entries::{Entries, MOST};
use crate::random::Random;
use crate::titles;

/// One in so many calls is made on a damaged store.
const DAMAGED: usize = 30;

/// One long sequence for so many short ones.
const LONG: u64 = 250;

/// How often each kind is called: adds, removals, finds.
const MIXED: [usize; 3] = [5, 3, 3];
const GROWING: [usize; 3] = [10, 1, 1];
const SHRINKING: [usize; 3] = [1, 10, 1];

/// Few titles and few numbers.
pub fn short(runs: &Runs) -> Found {
    let good = titles::all();
    runs.each(runs.amount.random, |holder, index| {
        let mut random = Random::new(runs.seed, index);
        let (titles, numbers) = (random.range(1, 6), random.range(2, 14));
        let pool = Pool::new(&mut random, &good, titles, numbers);
        holder.begin(index, Entries::default().store());
        let calls = random.range(8, 50);
        some(holder, &mut random, &pool, MIXED, calls)
    })
}

/// As many numbers as may collide: catalogues that grow from nothing until they are full, stay so
/// for a while, and shrink; those that begin nearly full; with few titles or with many.
pub fn long(runs: &Runs) -> Found {
    let good = titles::all();
    runs.each(runs.amount.random.div_ceil(LONG), |holder, index| {
        let mut random = Random::new(!runs.seed, index);
        let titles = random.one_of(&[1, 3, 40, 700]);
        let pool = Pool::new(&mut random, &good, titles, MOST + 200);
        let start = if index.is_multiple_of(3) { 0 } else { MOST - 20 };
        holder.begin(index, given::entries(&mut random, start).store());
        some(holder, &mut random, &pool, GROWING, 3 * (MOST - start))?;
        some(holder, &mut random, &pool, MIXED, 200)?;
        some(holder, &mut random, &pool, SHRINKING, 3 * (MOST - start) / 2)
    })
}

/// So many calls with these weights.
fn some(
    holder: &mut Holder,
    random: &mut Random,
    pool: &Pool,
    weights: [usize; 3],
    calls: usize,
) -> Held {
    for _ in 0..calls {
        if random.once_in(DAMAGED) {
            on_damaged(holder, random, pool)?;
        }
        pool.call(holder, random, weights)?;
    }
    Ok(())
}

/// One call on a damaged copy of the store.
fn on_damaged(holder: &mut Holder, random: &mut Random, pool: &Pool) -> Held {
    let Ok(entries) = holder.entries().cloned() else { return Ok(()) };
    let kind = random.below(KINDS);
    holder.load(damage(random, &entries, kind));
    pool.call(holder, random, [1, 1, 1])?;
    holder.load(entries.store());
    Ok(())
}
