//! Where the bookmarks of the cases are.

use crate::call::Call;
use crate::model::Reading;

/// The place nearest the middle of an input where a step begins and from where the rest alone reads
/// as it does behind what is before it, without issue.
pub fn middle(call: Call) -> usize {
    let mut places = call.places();
    places.sort_by_key(|place| place.abs_diff(call.input.len() / 2));
    let middle = places.into_iter().find(|&place| apart(call, place));
    middle.expect("the end is such a place")
}

/// Whether the rest alone reads as it does behind what is before it.
fn apart(call: Call, place: usize) -> bool {
    let (mut rest, mut alone) = (Reading::default(), Reading::default());
    let between = call.between(place).expect("a step begins there");
    call.read_on(&between, &mut rest);
    Call { input: &call.input[place..], ..call }.read(&mut alone);
    rest.issues.is_empty() && alone.issues.is_empty() && rest.text == alone.text
}
