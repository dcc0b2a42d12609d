//! The two files: the cell table and the leaves.

use isdb_text::tables;
use oracle::{cells, leaves, sets};

#[test]
fn the_table_has_6879_cells() {
    let table = cells::table();
    assert_eq!(table.len(), 17_672);
    assert_eq!(table.chunks(2).filter(|cell| **cell != [0, 0]).count(), 6_879);
}

/// 16 bits cut no cell short.
#[test]
fn the_table_is_whole() {
    for ((row, cell), number) in cells::all().zip(cells::table().chunks(2)) {
        let number = u32::from(number[0]) << 8 | u32::from(number[1]);
        assert_eq!(tables::jis_x0208(row, cell).map_or(0, u32::from), number);
    }
}

#[test]
fn each_part_of_the_leaves_has_its_count() {
    for part in &leaves::PARTS {
        assert_eq!(part.bytes().len(), 3 * part.count, "{}", part.name);
    }
}

#[test]
fn no_cell_lies_outside_the_rows_and_cells_asked() {
    let outside = |(row, cell): &(u8, u8)| !((1..=94).contains(row) && (1..=94).contains(cell));
    let pairs = (0..=255).flat_map(|row| (0..=255).map(move |cell| (row, cell)));
    for (row, cell) in pairs.filter(outside) {
        assert_eq!(tables::kanji(row, cell), None);
        assert_eq!(tables::additional_symbols(row, cell), None);
    }
}

#[test]
fn numbers_count_the_sets() {
    let numbers: Vec<u32> = sets::all().map(sets::number).collect();
    assert_eq!(numbers, (0..32).collect::<Vec<u32>>());
}
