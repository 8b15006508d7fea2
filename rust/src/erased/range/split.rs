// Generated from crates/langtag_range/src/split.rt. Do not edit.

//! Splitting a string at the first byte of a given value.

/// Returns the string before the first `mark` and the string after it. If there is no `mark`,
/// returns the whole string and an empty string.
///
/// `split_at_byte(b"fr;q=1", b';')` is `(b"fr", b"q=1")`.
#[inline]
#[must_use]
pub fn split_at_byte(text: &[u8], mark: u8) -> (&[u8], &[u8]) {
    split_at(text, first_place(text, mark))
}

/// Returns the string before and after the first byte that is `mark` or `other`:
/// `split_at_either(b"zh_TW", b'-', b'_')` is `(b"zh", b"TW")`.
#[inline]
#[must_use]
pub fn split_at_either(text: &[u8], mark: u8, other: u8) -> (&[u8], &[u8]) {
    split_at(text, first_of_either(text, mark, other))
}

/// Returns the number of bytes before the first `mark`, or of all bytes if there is none:
/// `len_before(b"fr;q=1", b';')` is 2.
#[inline]
#[must_use]
pub fn len_before(text: &[u8], mark: u8) -> usize {
    first_place(text, mark).unwrap_or(text.len())
}

/// Returns the number of bytes before the first `mark` or `other`, or of all bytes if there is
/// none.
#[inline]
pub(crate) fn len_before_either(text: &[u8], mark: u8, other: u8) -> usize {
    first_of_either(text, mark, other).unwrap_or(text.len())
}

/// Returns the index of the first `mark`, or `None` if there is none: `first_place(b"q=1", b'=')`
/// is `Some(1)`.
#[inline]
pub(crate) fn first_place(text: &[u8], mark: u8) -> Option<usize> {
    text.iter().position(|byte| *byte == mark)
}

#[inline]
fn first_of_either(text: &[u8], mark: u8, other: u8) -> Option<usize> {
    text.iter().position(|byte| *byte == mark || *byte == other)
}

/// Returns the string before an index, and the string after the byte at that index. If the index is
/// `None`, returns the whole string and an empty string.
#[inline]
fn split_at(text: &[u8], index: Option<usize>) -> (&[u8], &[u8]) {
    match index {
        Some(index) => (&text[..index], &text[index + 1..]),
        None => (text, b""),
    }
}
