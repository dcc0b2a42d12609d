//! One call of the crate held: against isdb-text, and what that does not answer against its text
//! (private-use characters), 01 (the key) and the models (the issues' positions, the charge, the
//! gap).

use std::fmt::Debug;
use std::panic::{AssertUnwindSafe, catch_unwind};

use isdb_text::{decode_with, encode_with};
use ours::{Coded, Decoded, EncodeError, Measured, Refused};

use super::types::{coded, decode_options, decoded, encode_options, reason};
use super::{Calls, Tally};
use crate::call::Call;
use crate::coding::Coder;
use crate::difference::{Difference, Held, held};
use crate::key::key;
use crate::model::Reading;
use crate::private_use;
use crate::runs::Worker;

/// What a thread keeps from call to call.
pub struct Holder {
    calls: Calls,
    /// The model's reading of the last input.
    reading: Reading,
    model: Coder,
    pub tally: Tally,
}

impl Worker for Holder {
    type Subject = Calls;
    type Tally = Tally;

    fn new(calls: Calls) -> Self {
        let (reading, model, tally) = Default::default();
        Holder { calls, reading, model, tally }
    }

    fn tally(self) -> Tally {
        self.tally
    }
}

impl Holder {
    /// An input.
    pub fn read(&mut self, call: Call) -> Held {
        self.reading(call).map(drop)
    }

    /// Text with its private-use characters, issues with all their fields and positions, the key,
    /// whether there is no issue, and how many bytes and issues there are, with the charge.
    fn reading(&mut self, call: Call) -> Result<Decoded, Difference> {
        let (calls, own) = (self.calls, decode_options(&call));
        call.read(&mut self.reading);
        let rust = decode_with(call.input, &call.options().into());
        let counts = [rust.issues.len(), self.reading.issues.len()];
        let fault = (counts[0] != counts[1]).then_some("the number of issues, of Rust and model");
        held(fault, &call, |difference| difference.line("issues", format!("{counts:?}")))?;
        let reading = decoded(rust, &self.reading);
        same("reading", &call, &reading, || (calls.decode)(call.input, &own))?;
        let key = if !reading.issues.is_empty() {
            refused(10)
        } else if reading.private_use > 0 {
            refused(11)
        } else {
            Ok(key(&reading.text))
        };
        same("key", &call, &key, || (calls.key)(call.input, &own))?;
        self.reason(call, &key)?;
        let clean = Ok(reading.issues.is_empty());
        same("clean", &call, &clean, || (calls.clean)(call.input, &own))?;
        let (text, issues) = (reading.text.len(), reading.issues.len());
        let measured = Ok(Measured { text, issues, charged: self.reading.charge });
        same("measure", &call, &measured, || (calls.measure)(call.input, &own))?;
        self.tally.readings += 1;
        self.tally.issues += reading.issues.len() as u64;
        self.tally.positions.see(reading.issues.iter().map(|issue| issue.position as u32));
        self.tally.private_use.see(reading.private_use);
        self.tally.keys += u64::from(key.is_ok());
        Ok(reading)
    }

    /// A text: the coding or the error with its place and character, the gap, and the coding
    /// decoded again. What is not well-formed is no text of this crate.
    pub fn code(&mut self, call: Call) -> Held {
        let Ok(text) = str::from_utf8(call.input) else { return Ok(()) };
        let (calls, own) = (self.calls, encode_options(&call));
        let coding = coded(encode_with(text, &call.options().into()));
        same("coding", &call, &coding, || (calls.encode)(text, &own))?;
        let gap = self.model.code(&call).map_or(0, |coding| coding.gap);
        let with_gap = coding.clone().map(|bytes| Coded { bytes, gap });
        same("coding with its gap", &call, &with_gap, || (calls.code)(text, &own))?;
        self.tally.codings += 1;
        self.tally.gaps += u64::from(gap > 0);
        coding.map_or(Ok(()), |bytes| self.again(call, text, &bytes.0))
    }

    /// The coding is read as the text, without issue.
    fn again(&mut self, call: Call, text: &str, coding: &[u8]) -> Held {
        let again = self.reading(Call { input: coding, ..call })?;
        self.tally.again += 1;
        let private_use = private_use::count(text);
        let expected = Decoded { text: text.into(), issues: vec![], private_use };
        same("coding read again", &call, &expected, || again)
    }

    /// Why a key is refused, if it is.
    fn reason(&self, call: Call, key: &Result<String, Refused>) -> Held {
        let Err(refused) = key else { return Ok(()) };
        same("reason", &call, &reason(refused.number), || (self.calls.reason)(refused))
    }

    /// An input and a text that are too long.
    pub fn too_long(&mut self, call: Call, text: &str) -> Held {
        let (calls, own) = (self.calls, decode_options(&call));
        same("reading", &call, &refused(3), || (calls.try_decode)(call.input, &own))?;
        same("key", &call, &refused(3), || (calls.key)(call.input, &own))?;
        self.reason(call, &refused(3))?;
        same("clean", &call, &refused(3), || (calls.clean)(call.input, &own))?;
        same("measure", &call, &refused(3), || (calls.measure)(call.input, &own))?;
        let (call, own) = (Call { input: text.as_bytes(), ..call }, encode_options(&call));
        same("coding", &call, &Err(EncodeError::TooLong), || (calls.encode)(text, &own))?;
        same("coding with its gap", &call, &Err(EncodeError::TooLong), || (calls.code)(text, &own))
    }
}

fn refused<T>(number: u32) -> Result<T, Refused> {
    Err(Refused { number, place: 0 })
}

/// The crate's answer is the expected one, and no panic.
fn same<T>(what: &str, call: &Call, expected: &T, answer: impl FnOnce() -> T) -> Held
where
    T: PartialEq + Debug,
{
    let found = catch_unwind(AssertUnwindSafe(answer)).ok();
    let fault = (found.as_ref() != Some(expected)).then_some(what);
    held(fault, call, |difference| {
        let found = found.map_or("a panic".into(), |found| format!("{found:?}"));
        difference.line("expected", format!("{expected:?}")).line("crate", found)
    })
}
