//! Private-use characters, as request 6 tells them.

/// "characters from U+E000 to U+F8FF"
pub fn is_private_use(c: char) -> bool {
    ('\u{E000}'..='\u{F8FF}').contains(&c)
}

/// "the private-use characters in its text, each repeat counted"
pub fn count(text: &str) -> usize {
    text.chars().filter(|&c| is_private_use(c)).count()
}
