// Generated from crates/langtag_range/src/listed.rt. Do not edit.

//! A language range in a list that the caller has, such as the user's settings.

use crate::erased::range::locale::locale_place;
use crate::erased::range::range_text::{is_first_subtag, is_range_subtag};
use crate::erased::range::split::split_at_either;
use crate::erased::range::wanted::WantedRange;
use crate::erased::range::wanted_element::{is_separator, is_star, trimmed};

/// Reads a string as a language range, basic or extended, with the weight 1. As in a header, `_` is
/// read as `-`. White space around the range is dropped, and so is everything from the first `.`,
/// `@` or `_#` on. Returns `None` if the rest is not a range, such as `de;q=0`.
///
/// ```
/// use langtag::erased::matching::listed_range;
///
/// assert_eq!(listed_range(b" zh_TW.UTF-8").map(|range| range.bytes), Some(&b"zh_TW"[..]));
/// ```
#[inline]
#[must_use]
pub fn listed_range(text: &[u8]) -> Option<WantedRange<'_>> {
    let bytes = locale_place(trimmed(text));
    if !is_listed_range(bytes) {
        return None;
    }
    Some(WantedRange {
        bytes,
        weight: 1000,
    })
}

/// Returns whether a string is a language range if `_` is read as `-`.
#[inline]
fn is_listed_range(text: &[u8]) -> bool {
    let (first, _) = split_at_either(text, b'-', b'_');
    (is_star(first) || is_first_subtag(first)) && are_listed_subtags(text)
}

/// Returns whether each subtag is `*`, or 1 to 8 letters or digits.
#[inline]
fn are_listed_subtags(text: &[u8]) -> bool {
    text.split(|byte| is_separator(*byte))
        .all(|subtag| is_range_subtag(subtag))
}
