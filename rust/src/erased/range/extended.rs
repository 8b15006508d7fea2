// Generated from crates/langtag_range/src/extended.rt. Do not edit.

//! Extended filtering (RFC 4647 section 3.3.2).

use crate::erased::scan::{case_insensitive_eq, Subtags};

/// Returns whether the first subtag of a range matches the first subtag of a tag, and the other
/// subtags of the range occur among the other subtags of the tag.
#[inline]
#[must_use]
pub fn matches_extended(range: &str, tag: &str) -> bool {
    let mut wanted = Subtags::new(range);
    let mut subtags = Subtags::new(tag);
    let (Some(first), Some(subtag)) = (wanted.next(), subtags.next()) else {
        return false;
    };
    matches_first(first, subtag) && stand_among(wanted, subtags)
}

/// Returns whether a subtag of a range is `*`, or equals a subtag of a tag, ignoring case.
#[inline]
fn matches_first(range: &str, subtag: &str) -> bool {
    range == "*" || case_insensitive_eq(range.as_bytes(), subtag.as_bytes())
}

/// Returns whether the subtags of a range occur among the subtags of a tag, in the same order. Each
/// `*` in the range is ignored. No single-character subtag of the tag may be skipped.
#[inline]
fn stand_among(wanted: Subtags<'_>, mut subtags: Subtags<'_>) -> bool {
    for subtag in wanted {
        if subtag != "*" && !pass(&mut subtags, subtag) {
            return false;
        }
    }
    true
}

/// Reads subtags until one equals `wanted`, ignoring case, and then returns `true`. Returns `false`
/// if it reads another single-character subtag first, or if no subtags are left.
#[inline]
fn pass(subtags: &mut Subtags<'_>, wanted: &str) -> bool {
    while let Some(subtag) = subtags.next() {
        if case_insensitive_eq(wanted.as_bytes(), subtag.as_bytes()) {
            return true;
        }
        if subtag.len() == 1 {
            return false;
        }
    }
    false
}
