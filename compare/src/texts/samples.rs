//! One or two characters of every kind, and what is made of them.

/// Each by another set or with other candidates; marks on bases of several sizes; then a
/// character without candidate and a mark that may lack its base.
pub const SAMPLES: [&str; 24] = [
    "あ", // hiragana, kanji
    "ン", // katakana, kanji
    "ー", // hiragana, katakana, kanji
    "、",
    "亜", // kanji
    "Ω",
    "年", // kanji, additional symbols, not the same cell
    "⛌",  // kanji, additional symbols, the same cell
    "㐂", // additional symbols
    "𠮷",
    "Ａ", // alphanumeric wide, kanji
    "￥",
    "A", // alphanumeric narrow
    "¥",
    "ｱ", // JIS X 0201 katakana
    "ﾟ",
    " ",
    "\u{3000}",
    "\n",
    "か\u{301}",
    "A\u{20DD}\u{332}",
    "\u{3000}\u{305}",
    "\u{1}",
    "\u{300}",
];

/// All sequences of so many samples; `index` is below their number, `count(length)`.
pub fn sequence(index: u64, length: u32) -> String {
    let base = SAMPLES.len() as u64;
    let digits = (0..length).map(|digit| index / base.pow(digit) % base);
    digits.map(|digit| SAMPLES[digit as usize]).collect()
}

pub fn count(length: u32) -> u64 {
    (SAMPLES.len() as u64).pow(length)
}
