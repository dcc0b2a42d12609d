//! Store, coding and counts to lend.

use crate::call::{Answer, CodingRooms, numbered};
use crate::coding::Coding;
use crate::difference::digits;
use crate::lent::{Buffer, Element, answer_fault};
use crate::random::Random;
use crate::subject::CodingLent;

/// Buffers that are used again from call to call.
#[derive(Default)]
pub struct Buffers {
    store: Buffer<u32>,
    coding: Buffer<u8>,
    counts: [usize; 3],
    /// How many calls were lent to, and what the store held before the last.
    lent: u64,
    content: Content,
}

impl Buffers {
    /// A store and a buffer of these lengths, in which the call must not find anything.
    pub fn lend(&mut self, rooms: CodingRooms) -> CodingLent<'_> {
        self.lent += 1;
        self.counts = [usize::MAX; 3];
        let mut random = Random::new(0x5708E, self.lent);
        self.content = random.one_of(&CONTENTS);
        let store = self.store.lend(rooms.store);
        store.fill_with(|| self.content.number(&mut random));
        CodingLent { store, coding: self.coding.lend(rooms.coding), counts: &mut self.counts }
    }

    /// The first thing that is not as the answer says, if any. The store is zero in any case.
    pub fn fault(&self, given: u32, answer: Answer<Coding>) -> Option<String> {
        let nothing = Coding::default();
        let (refusal, coding) = numbered(answer, &nothing);
        let counts = [refusal.place as usize, coding.bytes.len(), coding.gap];
        answer_fault((given, refusal.number), &self.counts, &counts)
            .or_else(|| self.coding.fault("coding byte", &coding.bytes))
            .or_else(|| self.store.fault("store number", &[]))
    }

    /// What the store held before the call, in words.
    pub fn before(&self) -> String {
        format!("{:?}, call {} of its thread", self.content, self.lent)
    }

    /// What the call left, in words.
    pub fn words(&self, given: u32) -> String {
        let [place, length, gap] = self.counts;
        let coding = digits(self.coding.lent());
        format!("refusal {given} place {place} length {length} gap {gap}: {coding}")
    }
}

/// What the numbers of a store are before a call, one of these from call to call.
#[derive(Debug, Clone, Copy, Default)]
enum Content {
    /// As a call leaves them.
    #[default]
    Zeros,
    Ones,
    Pattern,
    /// As a search might write costs.
    Small,
    /// Of all sizes.
    Any,
    /// Two places below this, as a search might keep where its states stand: the one in the upper
    /// half is taken from 65,535.
    Places(usize),
    /// Each number one of the above.
    Mixed,
}

use Content::{Any, Mixed, Ones, Pattern, Places, Small, Zeros};

const CONTENTS: [Content; 10] =
    [Mixed, Zeros, Ones, Pattern, Small, Any, Places(2), Places(16), Places(256), Places(4_096)];

impl Content {
    /// The next number.
    fn number(self, random: &mut Random) -> u32 {
        match self {
            Zeros => 0,
            Ones => u32::MAX,
            Pattern => u32::PATTERN,
            Small => random.below(7) as u32,
            Any => random.number() as u32,
            Places(count) => {
                let [upper, lower] = [(); 2].map(|()| random.below(count) as u32);
                (65_535 - upper) << 16 | lower
            }
            Mixed => random.one_of(&CONTENTS[1..]).number(random),
        }
    }
}
