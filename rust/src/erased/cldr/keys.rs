// Generated from crates/langtag_cldr/src/keys.rt. Do not edit.

//! Finds the positions of strings in the tables, which contain numbers for the strings.

use crate::erased::scan::folded_number;

/// Returns the index of a string's number in a list of ascending numbers.
#[inline]
#[must_use]
pub fn index_of(keys: &[u32], text: &[u8]) -> Option<usize> {
    keys.binary_search_by_key(&folded_number(text), |key| u64::from(*key))
        .ok()
}

/// Returns the position of a string among the strings whose numbers are `keys`, counted from 1. It
/// is 0 for the empty string, and the position after the last for a string that is not among them.
pub(crate) fn place(keys: &[u32], text: &[u8]) -> u32 {
    if text.is_empty() {
        return 0;
    }
    match index_of(keys, text) {
        Some(index) => index as u32 + 1,
        None => keys.len() as u32 + 1,
    }
}
