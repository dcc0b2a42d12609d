//! Corners: lengths of keys, numbers, a catalogue that is full, titles in both widths, how many
//! counts are lent.

use super::given::{ISSUE, LENGTHS, repeated};
use super::{Found, Holder, Runs, Title};
use crate::call::{Call, OPTIONS};
use crate::difference::Held;
use crate::entries::{Entries, LONGEST, MOST};
use crate::{cells, titles};

/// Numbers at the limits.
const NUMBERS: [u32; 5] = [0, 1, (1 << 31) - 1, 1 << 31, u32::MAX];

/// The most counts that are lent.
const COUNTS: usize = 5;

const CORNERS: [fn(&mut Holder, u64) -> Held; 6] = [lengths, numbers, full, widths, finds, counts];

/// All of them.
pub fn corners(runs: &Runs) -> Found {
    runs.each(CORNERS.len() as u64, |holder, index| CORNERS[index as usize](holder, index))
}

/// Keys of up to 255 bytes and above, under all options, in buffers that just suffice, lack a byte
/// or have more; then the same title in the other width, and both removed.
fn lengths(holder: &mut Holder, index: u64) -> Held {
    for (initial, width) in OPTIONS {
        for length in [0, 1, 2, LONGEST - 1, LONGEST, LONGEST + 1, LONGEST + 2, 512] {
            holder.begin(index, Entries::default().store());
            for (number, narrow) in [(9, false), (4, true), (6, false)] {
                let input = repeated(narrow, length);
                let call = Call { cells: cells::zeros(), initial, width, input: &input };
                for beyond in [-1, 5, 0] {
                    let number = number * 10 + (beyond + 1) as u32;
                    holder.add(Title { call, beyond, ..Title::new(&input, number) })?;
                }
            }
            for key in [length, length + 1, length.saturating_sub(1)] {
                holder.find(&b"A".repeat(key), 3)?;
            }
            empty(holder)?;
        }
    }
    Ok(())
}

/// Removes each entry, the greatest number first, and each again.
fn empty(holder: &mut Holder) -> Held {
    let numbers: Vec<u32> = holder.entries().into_iter().flat_map(Entries::numbers).collect();
    for &number in numbers.iter().rev() {
        holder.remove(number)?;
        holder.remove(number)?;
    }
    Ok(())
}

/// Numbers at the limits in every order: each is added, added again, removed and removed again.
fn numbers(holder: &mut Holder, index: u64) -> Held {
    for order in orders(&NUMBERS) {
        holder.begin(index, Entries::default().store());
        for (n, &number) in order.iter().enumerate() {
            let input = repeated(false, 1 + n % 2);
            holder.add(Title::new(&input, number))?;
            holder.add(Title::new(&input, number))?;
            holder.find(b"A", 3)?;
        }
        for &number in order[2..].iter().chain(&order[..2]) {
            holder.remove(number)?;
            holder.find(b"AA", 3)?;
            holder.remove(number)?;
        }
    }
    Ok(())
}

/// Every order of the numbers.
fn orders(numbers: &[u32]) -> Vec<Vec<u32>> {
    let Some((&first, rest)) = numbers.split_first() else { return vec![vec![]] };
    let put = |order: Vec<u32>| {
        (0..=order.len()).map(move |at| {
            let mut order = order.clone();
            order.insert(at, first);
            order
        })
    };
    orders(rest).into_iter().flat_map(put).collect()
}

/// Two entries less than there can be; one more, the last and one too many, at the front, in the
/// middle and at the end; then a place is made and taken again.
fn full(holder: &mut Holder, index: u64) -> Held {
    let keys: [fn(usize) -> Vec<u8>; 3] = [
        |_| vec![],
        |n| n.to_be_bytes().to_vec(),
        |n| [&[0x41; LONGEST - 2][..], &(n as u16).to_be_bytes()].concat(),
    ];
    let (title, long) = (repeated(true, 3), repeated(true, LONGEST + 1));
    for key in keys {
        let entry = |n: usize| (4 * n as u32 + 100, key(n));
        for numbers in [[0, 1, 2], [1_001, 1_002, 1_003], [u32::MAX, u32::MAX - 1, 7_000]] {
            holder.begin(index, (0..MOST - 2).map(entry).collect::<Entries>().store());
            for number in numbers {
                holder.add(Title::new(&title, number))?;
                holder.find(b"AAA", 3)?;
            }
            holder.add(Title::new(&long, numbers[2]))?;
            holder.add(Title::new(&title, 100))?;
            for number in [100, numbers[0], 4 * (MOST as u32 - 3) + 100] {
                holder.remove(number)?;
                holder.remove(number)?;
                holder.add(Title::new(&title, numbers[2] + 3))?;
                holder.remove(numbers[2] + 3)?;
                holder.add(Title::new(&title, number))?;
                holder.find(&key(0), 3)?;
            }
        }
    }
    Ok(())
}

/// Each broadcast title, in its own size and behind MSZ, under all options; and a letter, which has
/// one key in both.
fn widths(holder: &mut Holder, index: u64) -> Held {
    for (initial, width) in OPTIONS {
        holder.begin(index, Entries::default().store());
        let letter = vec![0x0E, 0x41];
        for (n, title) in titles::all().into_iter().chain([letter]).enumerate() {
            for (number, size) in [(200 - n as u32, &[][..]), (900 + n as u32, &[0x89])] {
                let input = [size, &title].concat();
                let call = Call { cells: cells::rusts(), initial, width, input: &input };
                holder.add(Title { call, beyond: n as isize % 3, ..Title::new(&input, number) })?;
            }
            let key = holder.entries().ok().and_then(|entries| entries.keys().next());
            let key = key.map(<[u8]>::to_vec).unwrap_or_default();
            holder.find(&key, 3)?;
        }
        holder.find(b"A", 3)?;
        empty(holder)?;
    }
    Ok(())
}

/// Keys of all lengths sought where there is none, where every length is held, and where each is
/// held twice.
fn finds(holder: &mut Holder, index: u64) -> Held {
    let held = |doubled: u32| -> Entries {
        let keys = (0..=LONGEST as u32).map(|n| (n, vec![0; n as usize]));
        keys.flat_map(|(n, key)| (0..doubled).map(move |m| (700 * m + n, key.clone()))).collect()
    };
    for doubled in 0..=2 {
        holder.begin(index, held(doubled).store());
        for length in LENGTHS {
            for key in [vec![0; length], vec![0x41; length], [vec![0; length], vec![1]].concat()] {
                holder.find(&key, 3)?;
            }
        }
    }
    Ok(())
}

/// Each number of counts, in calls that are accepted and in refused ones.
fn counts(holder: &mut Holder, index: u64) -> Held {
    let entries: Entries = [(3, b"A".to_vec()), (u32::MAX, b"A".to_vec())].into_iter().collect();
    let other = entries.store()[1..].to_vec();
    let (sound, faulty) = (repeated(false, 2), ISSUE.to_vec());
    for counts in 0..=COUNTS {
        holder.begin(index, entries.store());
        holder.find(b"A", counts)?;
        holder.find(b"B", counts)?;
        for input in [&faulty, &sound, &sound] {
            holder.add(Title { counts, beyond: 7, ..Title::new(input, 8) })?;
        }
        holder.load(other.clone());
        holder.find(b"A", counts)?;
        holder.add(Title { counts, ..Title::new(&sound, 8) })?;
    }
    Ok(())
}
