//! data/titles.hex is what the Rust's `encode` makes of the titles, and reads back.

use compare::titles;
use oracle::coding::code;
use oracle::options::Options;
use oracle::reading::read;

#[test]
fn each_line_codes_its_title() {
    let options = Options::from_numbers(0, 0).unwrap();
    assert!(titles::all().len() >= 50);
    for (bytes, title) in titles::lines() {
        assert_eq!(code(options, title.as_bytes()).as_ref(), Ok(&bytes), "{title}");
        assert_eq!(read(options, &bytes).text, title);
    }
}
