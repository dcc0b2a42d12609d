//! The model on the lines of 01's table of twelve that decode.

use compare::call::Call;
use compare::cells;
use compare::inputs::corners;
use compare::model::{Issue, Reading};

/// Text, issues and charge as 01 has them.
const ANSWERS: [(&str, &[Issue], usize); 8] = [
    ("\u{FF21}", &[], 0),
    ("A", &[], 0),
    ("あ", &[[0, 4, 0, 0, 0]], 0),
    ("あああ", &[], 0),
    ("あ", &[[0, 13, 0, 0, 0]], 0),
    ("あ\u{301}", &[], 0),
    ("ア", &[], 16),
    ("", &[[0, 10, 0, 0, 0]], 8),
];

#[test]
fn the_table_of_twelve() {
    let cells = cells::zeros();
    for ((initial, width, input), (text, issues, charge)) in corners::table().zip(ANSWERS) {
        let mut reading = Reading::default();
        Call { cells, initial, width, input: &input }.read(&mut reading);
        let expected = Reading { text: text.into(), issues: issues.to_vec(), charge };
        assert_eq!(reading, expected, "{input:02X?}");
    }
}
