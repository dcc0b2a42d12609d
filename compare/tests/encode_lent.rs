//! What a store holds before a call: whatever a search might take for its own.

use compare::call::CodingRooms;
use compare::encode::Buffers;

/// Among a hundred stores each kind, all of a store's numbers being of it.
#[test]
fn each_kind_is_lent() {
    let mut buffers = Buffers::default();
    let rooms = CodingRooms { store: 9, coding: 0 };
    let stores: Vec<Vec<u32>> = (0..100).map(|_| buffers.lend(rooms).store.to_vec()).collect();
    let lent =
        |kind: fn(u32) -> bool| stores.iter().any(|store| store.iter().all(|&number| kind(number)));
    assert!(lent(|number| number == 0));
    assert!(lent(|number| number == u32::MAX));
    assert!(lent(|number| number == 0xA5A5_A5A5));
    // Two places in a layer, the upper taken from 65,535: of the first two states, of later ones.
    assert!(lent(|number| number >> 16 >= 65_534 && number % 65_536 < 2));
    assert!(lent(|number| number >> 16 >= 61_440 && (2..4_096).contains(&(number % 65_536))));
}
