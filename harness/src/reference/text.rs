//! Strings: a text and the zero bytes that fill its field.

use super::kind::limits::SHORTEST_STRING;

/// The text of a string field, or none where the field is no string.
///
/// A field has even length and ends with one zero byte after an odd text, with
/// two after an even one, so its last two bytes tell how long the text must be.
#[inline]
pub fn text_of(field: &[u8]) -> Option<&[u8]> {
    if field.len() < SHORTEST_STRING || !field.len().is_multiple_of(2) {
        return None;
    }
    let text = match field {
        [text @ .., 0, 0] => text,
        [text @ .., 0] => text,
        _ => return None,
    };
    (!text.contains(&0)).then_some(text)
}

/// The length of the text in a field already known to be a string.
#[inline]
pub fn text_length(field: &[u8]) -> usize {
    match field {
        [text @ .., 0, 0] => text.len(),
        _ => field.len() - 1,
    }
}

/// The length of the field that holds a text of this length.
#[inline]
pub fn field_length(text: usize) -> usize {
    (text + 2) & !1
}
