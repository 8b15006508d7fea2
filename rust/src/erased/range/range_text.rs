// Generated from crates/langtag_range/src/range_text.rt. Do not edit.

//! Which strings are language ranges (RFC 4647 section 2).

use crate::erased::scan::{are_letters, is_private_subtag, Subtags};

/// Returns whether a string is a language range, basic or extended.
#[inline]
#[must_use]
pub fn is_language_range(text: &str) -> bool {
    let mut subtags = Subtags::new(text);
    let Some(first) = subtags.next() else {
        return false;
    };
    (first == "*" || is_first_subtag(first.as_bytes())) && are_range_subtags(subtags)
}

/// Returns whether a string is a basic language range.
#[inline]
#[must_use]
pub fn is_basic_range(text: &str) -> bool {
    if text == "*" {
        return true;
    }
    let mut subtags = Subtags::new(text);
    let Some(first) = subtags.next() else {
        return false;
    };
    is_first_subtag(first.as_bytes()) && are_basic_subtags(subtags)
}

/// Returns whether the bytes are 1 to 8 letters.
#[inline]
pub(crate) fn is_first_subtag(bytes: &[u8]) -> bool {
    !bytes.is_empty() && bytes.len() <= 8 && are_letters(bytes)
}

/// Returns whether each subtag is `*`, or 1 to 8 letters or digits.
#[inline]
fn are_range_subtags(mut subtags: Subtags<'_>) -> bool {
    subtags.all(|subtag| is_range_subtag(subtag.as_bytes()))
}

/// Returns whether the bytes are `*`, or 1 to 8 letters or digits.
#[inline]
pub(crate) fn is_range_subtag(bytes: &[u8]) -> bool {
    matches!(bytes, [b'*']) || is_private_subtag(bytes)
}

/// Returns whether each subtag is 1 to 8 letters or digits.
#[inline]
fn are_basic_subtags(mut subtags: Subtags<'_>) -> bool {
    subtags.all(|subtag| is_private_subtag(subtag.as_bytes()))
}
