// Generated from crates/langtag_range/src/fallback.rt. Do not edit.

//! The length of a fallback of a language range (RFC 4647 section 3.4).

use crate::erased::scan::segment_start;

/// Returns the length of a range without its last subtag, and then without any single-character
/// subtags at its end. Returns `None` if nothing is left.
#[inline]
#[must_use]
pub fn shortened_len(range: &[u8]) -> Option<usize> {
    let mut left = range;
    while let Some(len) = len_without_last(left) {
        left = &left[..len];
        if !ends_in_single(left) {
            return Some(len);
        }
    }
    None
}

/// Returns the number of bytes before the last hyphen.
#[inline]
fn len_without_last(range: &[u8]) -> Option<usize> {
    let start = segment_start(range, range.len());
    if start == 0 {
        return None;
    }
    Some(start - 1)
}

/// Returns whether the last subtag of a string is a single character.
#[inline]
#[must_use]
pub fn ends_in_single(text: &[u8]) -> bool {
    matches!(text, [_] | [.., b'-', _])
}
