//! One call of the catalogue held against the model: its number, every byte of the store and of the
//! key's buffer, every count, and what stands beside them.

use super::tally::Tally;
use crate::call::{Call, Rooms};
use crate::decode::{self, Buffers};
use crate::difference::{Difference, Held, digits, held};
use crate::entries::{self, Entries, Form};
use crate::lent::Buffer;
use crate::runs::Worker;
use crate::subject::{CatalogueLent, Subject, model};
use crate::{cells, key};

/// A title to add.
#[derive(Clone, Copy)]
pub struct Title<'a> {
    pub call: Call<'a>,
    pub number: u32,
    /// How many bytes the key's buffer has beyond those of the text; below 0 it is too small.
    pub beyond: isize,
    /// How many counts are lent.
    pub counts: usize,
}

impl<'a> Title<'a> {
    /// Under Si and CharacterSize, with the Rust's table, in a buffer that just suffices.
    pub fn new(input: &'a [u8], number: u32) -> Title<'a> {
        let call = Call { cells: cells::rusts(), initial: 0, width: 0, input };
        Title { call, number, beyond: 0, counts: 3 }
    }
}

/// What a thread keeps from call to call.
pub struct Holder<'a> {
    subject: &'a dyn Subject,
    /// Reads the titles by the model and by the Rust.
    reader: decode::Holder<'static>,
    /// The store that is lent, the key's buffer and the counts.
    lent: Buffer<u8>,
    buffers: Buffers,
    /// The store before the next call, and what it holds.
    store: Vec<u8>,
    entries: Form,
    /// The index of the sequence within its part, and how many calls it has made.
    sequence: u64,
    calls: u64,
    pub tally: Tally,
}

impl<'a> Worker for Holder<'a> {
    type Subject = &'a dyn Subject;
    type Tally = Tally;

    fn new(subject: &'a dyn Subject) -> Self {
        let (lent, buffers, store, sequence, calls, tally) = Default::default();
        let (reader, entries) = (Worker::new(model()), Err(12));
        Holder { subject, reader, lent, buffers, store, entries, sequence, calls, tally }
    }

    fn tally(self) -> Tally {
        self.tally
    }
}

impl Holder<'_> {
    /// A sequence of calls begins, of this index within its part, on this store.
    pub fn begin(&mut self, index: u64, store: Vec<u8>) {
        (self.sequence, self.calls) = (index, 0);
        self.load(store);
    }

    /// The next call is made on this store.
    pub fn load(&mut self, store: Vec<u8>) {
        self.entries = Entries::of(&store);
        self.store = store;
        self.tally.stores += 1;
        self.tally.other += u64::from(self.entries.is_err());
        self.see_entries();
    }

    /// The store before the next call.
    pub fn store(&self) -> &[u8] {
        &self.store
    }

    /// What it holds.
    pub fn entries(&self) -> Form<&Entries> {
        self.entries.as_ref().map_err(|&number| number)
    }

    /// `arib_catalogue_add`.
    pub fn add(&mut self, title: Title) -> Held {
        let Title { call, number, beyond, counts } = title;
        let (room, key) = self.key(call, beyond)?;
        let keyed = key.as_ref().map(|(key, _)| key.as_bytes()).map_err(|&number| number);
        let held = keyed.is_ok_and(|key| self.entries().is_ok_and(|held| held.has(key)));
        let answer = entries::add(self.entries.clone(), keyed, number);
        let lent = self.buffers.lend(Rooms { text: room, issues: 0 }, counts);
        let store = self.lent.lend_copy(&self.store);
        let lent = CatalogueLent { store, key: lent.text, counts: lent.counts };
        let given = self.subject.add(call, number, lent);
        let (refusal, key) = match &answer {
            Ok(_) => (0, key.unwrap_or_default()),
            &Err(refusal) => (refusal, Default::default()),
        };
        self.see_call();
        self.tally.adds[refusal as usize] += 1;
        self.tally.doubled += u64::from(answer.is_ok() && held);
        let fault = self.buffers.key_fault((given, refusal), key.0.as_bytes(), key.1);
        self.settle("add", call, fault, answer.ok(), |holder, difference| {
            let words = holder.buffers.key_words(given);
            let rooms = format!("key {room}, counts {counts}");
            difference.line("number", number).line("rooms", rooms).line("subject", words)
        })
    }

    /// `arib_catalogue_remove`.
    pub fn remove(&mut self, number: u32) -> Held {
        let key = self.entries().ok().and_then(|entries| entries.key(number)).map(<[u8]>::to_vec);
        let answer = entries::remove(self.entries.clone(), number);
        let given = self.subject.remove(self.lent.lend_copy(&self.store), number);
        let refusal = answer.as_ref().err().copied().unwrap_or(0);
        let kept = answer.as_ref().is_ok_and(|after| key.is_some_and(|key| after.has(&key)));
        self.see_call();
        self.tally.removals[refusal as usize] += 1;
        self.tally.kept += u64::from(kept);
        let fault = (given != refusal).then(|| format!("refusal {given}, expected {refusal}"));
        self.settle("remove", without_title(&[]), fault, answer.ok(), |_, difference| {
            difference.line("number", number)
        })
    }

    /// `arib_catalogue_find` with so many counts.
    pub fn find(&mut self, key: &[u8], counts: usize) -> Held {
        let answer = entries::find(self.entries(), key);
        let (refusal, [count, smallest]) = (answer.err().unwrap_or(0), answer.unwrap_or_default());
        let store = self.lent.lend_copy(&self.store);
        let given = self.subject.find(store, key, self.buffers.lend_counts(counts));
        self.see_call();
        self.tally.finds[refusal as usize] += 1;
        self.tally.single += u64::from(count == 1);
        self.tally.several += u64::from(count > 1);
        let fault = self.buffers.counts_fault((given, refusal), &[0, count, smallest]);
        self.settle("find", without_title(key), fault, None, |_, difference| {
            difference.line("counts lent", counts)
        })
    }

    /// The room of the key's buffer; the title's key with its charge, or the refusal of the key's
    /// questions. It is read by the model, and where the table is the Rust's by the Rust too.
    fn key(&mut self, call: Call, beyond: isize) -> Result<(usize, Keyed), Difference> {
        let asked = call.questions();
        if asked != 0 {
            return Ok((0usize.saturating_add_signed(beyond), Err(asked)));
        }
        if call.cells == cells::rusts() {
            self.reader.read_both(call)?;
        } else {
            self.reader.read(call);
        }
        let reading = self.reader.reading();
        let room = reading.text.len().saturating_add_signed(beyond);
        let asked = key::questions(room, reading);
        Ok((room, if asked == 0 { Ok(key::of(0, reading)) } else { Err(asked) }))
    }

    /// A call of this name has left this fault or none; the store holds these entries from now on,
    /// or is as it was.
    fn settle(
        &mut self,
        name: &str,
        call: Call,
        fault: Option<String>,
        after: Option<Entries>,
        answers: impl FnOnce(&Self, Difference) -> Difference,
    ) -> Held {
        let store = after.as_ref().map(Entries::store);
        let expected = store.as_ref().unwrap_or(&self.store);
        let fault = fault.or_else(|| self.lent.fault("store byte", expected));
        held(fault.map(|what| format!("{name}: {what}")), &call, |difference| {
            let place = format!("call {} of sequence {}", self.calls, self.sequence);
            answers(self, difference).line("place", place).line("store before", self.words())
        })?;
        if let (Some(entries), Some(store)) = (after, store) {
            (self.entries, self.store) = (Ok(entries), store);
            self.see_entries();
        }
        Ok(())
    }

    /// The store before the call, up to its last byte that is not zero.
    fn words(&self) -> String {
        let front = digits(front(&self.store));
        match &self.entries {
            Ok(entries) => {
                format!("{} entries, {} keys: {front}", entries.len(), entries.distinct())
            }
            Err(_) => format!("{} bytes, of another form: {front}", self.store.len()),
        }
    }

    fn see_call(&mut self) {
        self.calls += 1;
        self.tally.on_other += u64::from(self.entries.is_err());
    }

    fn see_entries(&mut self) {
        self.tally.entries.see(self.entries.as_ref().map_or(0, Entries::len));
    }
}

/// A key and its charge, or the number of the key's refusal.
type Keyed = Result<(String, usize), u32>;

/// A call without a title; its input is a key or nothing.
fn without_title(input: &[u8]) -> Call<'_> {
    Call { cells: &[], initial: 0, width: 0, input }
}

/// A store without the zeros at its end.
pub fn front(store: &[u8]) -> &[u8] {
    let zeros = store.iter().rev().take_while(|&&byte| byte == 0).count();
    &store[..store.len() - zeros]
}
