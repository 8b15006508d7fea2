// Generated from crates/langtag_c/src/direction.rt. Do not edit.

//! Whether a tag is written from right to left.

use crate::calls::tag::tag_of;
use crate::erased::likely::is_right_to_left;

/// Returns whether a tag is written from right to left, by its script or, if it has none, by its
/// likely script: true for he, pa-PK and az-Arab, false for ar-Latn, for und, for a private-use
/// tag, and for a string that is not a tag.
#[inline]
pub fn langtag_is_right_to_left(bytes: &[u8]) -> bool {
    match tag_of(bytes) {
        Some(tag) => is_right_to_left(tag),
        None => false,
    }
}
