//! Long texts, up to 7,281 bytes. The Rust takes from some milliseconds to some seconds for one.

use super::{Alphabet, cut};
use crate::call::LONGEST_TEXT;
use crate::random::Random;
use crate::titles;

/// What is repeated to fill the greatest length.
const REPEATED: [&str; 10] = [
    "あいうえお",
    "亜唖娃阿哀",
    "A",
    "1 2 ",
    "ｱa",
    "あ\u{301}\u{20DD}",
    "今日の天気は晴れのち曇りです。",
    "あアいイ",
    "Aあｱア",
    "\n",
];

/// How many texts there are that are not random.
pub const FIXED: u64 = REPEATED.len() as u64 + 4;
/// How many there are in all.
pub const COUNT: u64 = FIXED + 24;

/// The long text of this index.
pub fn long(random: &mut Random, alphabet: &Alphabet, index: u64) -> Vec<u8> {
    let text = match REPEATED.get(index as usize) {
        Some(part) => filled(part),
        None => match index - REPEATED.len() as u64 {
            0 => caption(LONGEST_TEXT),
            1 => titles(LONGEST_TEXT),
            2 => mixed(2_400),
            3 => newlines(400),
            _ => some(random, alphabet),
        },
    };
    text.into_bytes()
}

/// A mixture of 300 to 2,000 bytes.
fn some(random: &mut Random, alphabet: &Alphabet) -> String {
    let length = random.range(300, 2_000);
    let text = alphabet.mixture(random, length);
    cut(&text, length).into()
}

fn filled(part: &str) -> String {
    cut(&part.repeat(LONGEST_TEXT), LONGEST_TEXT).into()
}

/// Lines as captions have them: kana, kanji, katakana, figures of both sizes, signs, a symbol.
const CAPTION: &str = "（アナウンサー）こんばんは。７時のニュースです。
きょう午後、東京・港区で開かれた会議には
３０か国からおよそ1,200人が集まりました。
「データをどう守るか」が大きなテーマです。
♪～
気象庁によりますと、あすの最高気温は
東京で２８度、札幌で19.5℃の見込みです。
";

/// Such lines, up to so many bytes.
pub fn caption(bytes: usize) -> String {
    cut(&CAPTION.repeat(1 + bytes / CAPTION.len()), bytes).into()
}

/// Titles, one a line.
fn titles(bytes: usize) -> String {
    let lines: String = titles::texts().iter().map(|title| format!("{title}\n")).collect();
    cut(&lines.repeat(1 + bytes / lines.len()), bytes).into()
}

/// Six sets in turn, in both sizes: for its length the coding is long and the layers are great.
pub fn mixed(bytes: usize) -> String {
    cut(&"あアｱA㐂亜".repeat(bytes), bytes).into()
}

/// Lines as captions have them, with marks.
pub fn marked(bytes: usize) -> String {
    cut(&"この\u{301}曲\u{20DD}はA\u{308}から。\n".repeat(bytes), bytes).into()
}

/// After this 7,851 states are kept, the most that a search for such texts found.
const WIDE: &str = "ンA年ンｱ㐂Ａ㐂ｱーンあＡＡ⛌ｱ\u{3000}ー";

/// That beginning, then newlines, each of which keeps every state.
pub fn newlines(bytes: usize) -> String {
    format!("{WIDE}{}", "\n".repeat(bytes - WIDE.len()))
}
