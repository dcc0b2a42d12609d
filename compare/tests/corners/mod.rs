//! The corners, put to a subject with a fault.

use compare::call::{Call, under_all};
use compare::decode::Holder;
use compare::difference::Held;
use compare::inputs;
use compare::runs::Worker;

use crate::faulty::Faulty;

/// Whether this call makes a difference on any of them, with this table and under all options, after
/// the model's reading.
pub fn differ(subject: &Faulty, cells: &[u16], hold: fn(&mut Holder, Call) -> Held) -> bool {
    let mut holder = Holder::new(subject);
    let corners = inputs::every_corner();
    corners.iter().flat_map(|input| under_all(cells, input)).any(|call| {
        holder.read(call);
        hold(&mut holder, call).is_err()
    })
}
