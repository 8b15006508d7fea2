// Generated from crates/langtag_language/src/extended_subtags.rt. Do not edit.

//! The subtags that may follow a primary language subtag (RFC 5646 section 2.2.2).

use crate::erased::scan::{is_extended, Subtags};

/// Returns whether at most `room` subtags are left, and all of them are extended language subtags.
#[inline]
pub(crate) fn are_extended_within(room: usize, subtags: Subtags<'_>) -> bool {
    let mut free = room;
    for subtag in subtags {
        if free == 0 || !is_extended(subtag.as_bytes()) {
            return false;
        }
        free -= 1;
    }
    true
}
