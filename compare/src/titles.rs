//! Programme titles as broadcast: data/titles.hex, coded by the Rust's `encode`.

use oracle::hex;

const FILE: &str = include_str!("../data/titles.hex");

/// Each line of the file: the bytes, and the title that they code.
pub fn lines() -> impl Iterator<Item = (Vec<u8>, &'static str)> {
    FILE.lines().map(|line| {
        let (digits, title) = line.split_once(' ').expect("digits, a space, the title");
        let mut bytes = Vec::new();
        hex::parse(&mut bytes, digits).expect("pairs of digits");
        (bytes, title)
    })
}

/// The titles.
pub fn texts() -> Vec<&'static str> {
    lines().map(|(_, title)| title).collect()
}

/// The titles' bytes.
pub fn all() -> Vec<Vec<u8>> {
    lines().map(|(bytes, _)| bytes).collect()
}
