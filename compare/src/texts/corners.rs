//! Corners of coding, and the texts of 01's table of twelve.

/// The four lines of 01's table that code. Its cell table is zero, its options are Si and
/// CharacterSize.
pub const TABLE: [&str; 4] = ["Ａ", "\u{3000}", "A", "\u{1}\n\u{301}"];

/// Texts that are well-formed.
const WELL_FORMED: &[&str] = &[
    "",
    "\n",
    "\n\n",
    // Marks before their base; question 5.
    "あ\u{301}",
    "あ\u{301}\u{300}い\u{332}",
    " \u{301}",
    "\u{3000}\u{301}",
    "○\u{20DD}",
    "A\u{308}B",
    "亜\u{301}\u{301}\u{301}\u{301}\u{301}\u{301}\u{301}\u{301}",
    "\u{301}",
    "\n\u{301}",
    "あ\n\u{301}\u{300}",
    "あ\u{301}\n\u{300}",
    // Question 6, behind question 5.
    "\u{1}",
    "\u{1}\u{301}",
    "\u{301}\u{1}",
    "あ\u{301}\u{1}",
    "あ\u{1}\u{301}\u{2}",
    "\u{1}あ\n\u{301}",
    // Ties, and one state reached by several ways.
    "アア",
    "アアア",
    "アａアａ",
    "ーーー",
    "。「ー」、・",
    "年月日",
    "🈔",
    "🈔🈔",
    "曙",
    "〒☎",
    // Sizes.
    "A",
    "a1 ",
    " ",
    "\u{3000}",
    "A　A ",
    "ｱあｱ",
    "ﾊﾟ",
    "\nA\nあ\nA",
    "亜A\u{305}亜",
    // Characters beside one another that are not the same.
    "~",
    "～",
    "〜",
    "\\",
    "＼",
    "¥",
    "￥",
    "-－−―—",
    "¢£¬￠￡￢",
    "‖∥",
    "\u{AD}",
    "'",
    "＇",
    "\"",
    "＂",
    // The ends of ranges.
    "\0",
    "\t",
    "\r",
    "\u{7F}",
    "\u{80}",
    "\u{A0}",
    "\u{D7FF}",
    "\u{E000}",
    "\u{FFFD}",
    "\u{FFFF}",
    "\u{10000}",
    "\u{1F200}",
    "\u{10FFFF}",
    "ゔ",
    "ゟ",
    "ヴヵヶ",
    "ヷ",
    "｡ﾟ",
    "\u{FF60}",
    "\u{FFA0}",
];

/// Bytes that are not.
const ILL_FORMED: &[&[u8]] = &[
    b"\x80",
    b"\xFF",
    b"A\xC0\x80",
    b"\xC1\xBF",
    b"\xC2",
    b"\xE3\x81\x82\xE3\x81",
    b"\xE0\x9F\xBF",
    b"\xED\xA0\x80",
    b"\xED\xBF\xBF",
    b"\xF0\x8F\xBF\xBF",
    b"\xF4\x90\x80\x80",
    b"\xF5\x80\x80\x80",
    b"\xF0\x9F\x88",
    b"\xE3\x81A",
    b"\xCC\x81\xFF",
    b"\x01\xFF",
    b"A\n\xCC\x81\xED\xA0\x80",
];

/// All corners.
pub fn all() -> impl Iterator<Item = &'static [u8]> {
    let texts = TABLE.iter().chain(WELL_FORMED).map(|text| text.as_bytes());
    texts.chain(ILL_FORMED.iter().copied())
}
