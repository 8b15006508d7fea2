// Generated from crates/langtag_range/src/basic.rt. Do not edit.

//! Basic filtering (RFC 4647 section 3.3.1).

use crate::erased::scan::case_insensitive_eq;

/// Returns whether a range is `*`, equals a tag, or equals the string before some hyphen of a tag.
/// Case is ignored.
#[inline]
#[must_use]
pub fn matches_basic(range: &str, tag: &str) -> bool {
    range == "*" || begins_with(tag.as_bytes(), range.as_bytes())
}

/// Returns whether a tag equals a range, or begins with the range followed by a hyphen. Case is
/// ignored.
#[inline]
fn begins_with(tag: &[u8], range: &[u8]) -> bool {
    if range.len() > tag.len() || !case_insensitive_eq(range, &tag[..range.len()]) {
        return false;
    }
    range.len() == tag.len() || tag[range.len()] == b'-'
}
