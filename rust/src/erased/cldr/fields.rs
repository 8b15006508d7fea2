// Generated from crates/langtag_cldr/src/fields.rt. Do not edit.

//! The string of a field, which is empty if the field is absent or unknown.

use crate::erased::scan::case_insensitive_eq;

/// Returns the first string, or the second string if the first is empty.
#[inline]
#[must_use]
pub fn or_other<'a>(text: &'a [u8], other: &'a [u8]) -> &'a [u8] {
    if text.is_empty() {
        other
    } else {
        text
    }
}

/// Returns a string, or the empty string if it is the code for an unknown field.
#[inline]
#[must_use]
pub fn known<'a>(unknown: &[u8], text: &'a [u8]) -> &'a [u8] {
    if case_insensitive_eq(unknown, text) {
        b""
    } else {
        text
    }
}
