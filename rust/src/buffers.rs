//! Buffers that are lent to the library, and larger ones where it refuses them.

/// How many bytes the first buffer for the text of a string has.
pub fn text_room(bytes: &[u8]) -> usize {
    4 * bytes.len() + 64
}

/// How many issues the first buffer for them holds, which is not allocated.
pub const ISSUE_ROOM: usize = 64;

/// More room, be it for bytes of text or for issues, and if there was none.
pub fn more_room(room: usize) -> usize {
    4 * room + 64
}

/// The most room that either takes: for each byte that is read, of the string or of a macro's body,
/// 63 times a character of four bytes.
pub fn most_room(bytes: &[u8]) -> usize {
    let charge = 64 * bytes.len() + 4_096;
    63 * 4 * (bytes.len() + charge)
}

/// Four times as much.
pub fn larger<T: Clone + Default>(buffer: &[T]) -> Vec<T> {
    vec![T::default(); 4 * buffer.len()]
}

/// What the library wrote, as a text.
pub fn written(mut buffer: Vec<u8>, length: usize) -> String {
    buffer.truncate(length);
    String::from_utf8(buffer).expect("the library writes UTF-8")
}
