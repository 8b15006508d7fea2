// Generated from crates/langtag_keyword/src/keyword_check.rt. Do not edit.

//! Which keys and values may be set.

use crate::erased::scan::{is_extension_subtag, Subtags};

/// Returns whether a string consists of a letter or a digit, and then a letter.
#[inline]
#[must_use]
pub fn is_unicode_key(text: &[u8]) -> bool {
    match text {
        [first, second] => first.is_ascii_alphanumeric() && second.is_ascii_alphabetic(),
        _ => false,
    }
}

/// Returns the offset of the first subtag of a value that does not consist of three to eight
/// letters or digits.
#[must_use]
pub fn invalid_type(value: &str) -> Option<usize> {
    let mut offset = 0;
    for subtag in Subtags::new(value) {
        if !is_type(subtag.as_bytes()) {
            return Some(offset);
        }
        offset += subtag.len() + 1;
    }
    None
}

/// Returns whether a subtag consists of three to eight letters or digits.
#[inline]
fn is_type(subtag: &[u8]) -> bool {
    subtag.len() >= 3 && is_extension_subtag(subtag)
}
