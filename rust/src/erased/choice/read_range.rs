// Generated from crates/langtag_choice/src/read_range.rt. Do not edit.

//! Comparing ranges with tags: in a range, `_` is read as `-`, and each `-*` is left out.

use crate::erased::cldr::{after_common, are_alike};

/// Returns whether a range is `*`.
#[inline]
pub(crate) fn is_star(range: &[u8]) -> bool {
    are_alike(range, b"*")
}

/// Returns whether a range begins with the whole string of a tag, ignoring case.
#[inline]
pub(crate) fn starts(range: &[u8], tag: &[u8]) -> bool {
    let (_, rest) = after_common(range, tag);
    rest.is_empty()
}

/// Returns whether a tag equals a range, or begins with the range and a hyphen.
#[inline]
pub(crate) fn begins(range: &[u8], tag: &[u8]) -> bool {
    let (left, rest) = after_common(range, tag);
    left.is_empty() && ends_subtag(rest)
}

/// Returns whether the rest of a tag is empty or begins with a hyphen.
#[inline]
pub(crate) fn ends_subtag(rest: &[u8]) -> bool {
    matches!(rest, [] | [b'-', ..])
}
