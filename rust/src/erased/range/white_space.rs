// Generated from crates/langtag_range/src/white_space.rt. Do not edit.

//! The white space around a string in a header (RFC 9110 section 5.6.3).

/// Returns whether the string between two commas of a header is empty except for spaces and tabs.
/// Such an element must be skipped (RFC 9110 section 5.6.1.2).
///
/// ```
/// use langtag::erased::matching::is_empty_element;
///
/// assert!(is_empty_element(b" \t"));
/// assert!(!is_empty_element(b" fr"));
/// ```
#[inline]
#[must_use]
pub fn is_empty_element(item: &[u8]) -> bool {
    item.iter().all(|byte| is_space(*byte))
}

/// Returns the offsets at which a string begins and ends without the white space around it.
#[inline]
#[must_use]
pub fn trimmed_place(text: &[u8]) -> (usize, usize) {
    let start = leading_spaces(text);
    (start, start + len_without_spaces(&text[start..]))
}

/// Returns the number of bytes of white space at the start of a string.
#[inline]
fn leading_spaces(text: &[u8]) -> usize {
    let mut start = 0;
    while start < text.len() && is_space(text[start]) {
        start += 1;
    }
    start
}

/// Returns the length of a string without the white space at its end.
#[inline]
fn len_without_spaces(text: &[u8]) -> usize {
    let mut len = text.len();
    while len > 0 && is_space(text[len - 1]) {
        len -= 1;
    }
    len
}

#[inline]
fn is_space(byte: u8) -> bool {
    byte == b' ' || byte == b'\t'
}
