//! Returns from bookmarks that no setting made: the model says which are accepted.

use super::damage::{some, values};
use super::{Found, Holder, Rest, Runs, Setting, given, state};
use crate::bookmark::{Bookmark, NAMES, NUMBERS, STORE, named, named_mut};
use crate::call::{Call, OPTIONS};
use crate::difference::Held;
use crate::random::Random;
use crate::{cells, titles};

/// One in so many of the bookmarks whose numbers are changed, in the quick run.
const QUICK: usize = 40;

/// Each number of bookmarks in the middle of the corners, one at a time.
pub fn each_number(runs: &Runs) -> Found {
    numbers(runs, 1)
}

/// The same of few of them.
pub fn some_numbers(runs: &Runs) -> Found {
    numbers(runs, QUICK)
}

fn numbers(runs: &Runs, every: usize) -> Found {
    let list: Vec<_> = given::own().into_iter().step_by(every).collect();
    runs.each(list.len() as u64, |holder, index| {
        let input = &list[index as usize];
        let (initial, width) = OPTIONS[index as usize % OPTIONS.len()];
        let call = Call { cells: cells::rusts(), initial, width, input };
        holder.begin(index);
        holder.read(call)?;
        let places = call.places();
        let place = places[places.len() / 2];
        if !holder.set(Setting::new(call, place, 2))? {
            return Ok(());
        }
        let bookmark = *named(holder.store(), 2);
        for number in 0..NUMBERS {
            for value in values(&bookmark, number, input.len()) {
                let mut other = bookmark;
                other[number] = value;
                on(holder, call, 2, &other)?;
            }
        }
        Ok(())
    })
}

/// Bookmarks of random inputs with numbers changed, and such as are made of any; in stores whose
/// other bookmarks are any numbers.
pub fn random(runs: &Runs) -> Found {
    let titles = titles::all();
    runs.each(runs.amount.random, |holder, index| {
        let mut random = Random::new(runs.seed ^ 0xB00C, index);
        let input = given::short(&mut random, &titles);
        let (initial, width) = random.one_of(&OPTIONS);
        let call = Call { cells: cells::rusts(), initial, width, input: &input };
        holder.begin(index);
        holder.read(call)?;
        let place = random.one_of(&call.places());
        let set = holder.set(Setting::new(call, place, 0))?;
        let first = *named(holder.store(), 0);
        for _ in 0..8 {
            let mut bookmark =
                if set && random.once_in(2) { first } else { state::any(&mut random, &input) };
            if !random.once_in(3) {
                some(&mut random, &mut bookmark, input.len());
            }
            let name = random.below(NAMES) as u32;
            holder.load(any_store(&mut random));
            on(holder, call, name, &bookmark)?;
            holder.set(Setting::new(call, place, random.below(17) as u32))?;
        }
        Ok(())
    })
}

/// Any numbers, of which the first of each bookmark is 0 or 1, but for one now and then.
fn any_store(random: &mut Random) -> Vec<u32> {
    let mut store: Vec<u32> = (0..STORE).map(|_| random.number() as u32).collect();
    store.chunks_mut(NUMBERS).for_each(|bookmark| bookmark[0] %= 2);
    if random.once_in(12) {
        store[NUMBERS * random.below(NAMES)] = random.one_of(&[2, 256, u32::MAX]);
    }
    store
}

/// A return from this bookmark, in rooms that just suffice, and lack a byte or a number now and
/// then.
fn on(holder: &mut Holder, call: Call, name: u32, bookmark: &Bookmark) -> Held {
    let mut store = holder.store().to_vec();
    *named_mut(&mut store, name) = *bookmark;
    holder.load(store);
    let beyond = match bookmark.iter().fold(0, |sum: u32, &n| sum.wrapping_add(n)) % 16 {
        0 => [-1, 0],
        1 => [0, -1],
        2 => [9, 7],
        _ => [0, 0],
    };
    holder.go_on(Rest { beyond, ..Rest::new(call, name) }).map(drop)
}
