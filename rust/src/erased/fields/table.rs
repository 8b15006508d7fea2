// Generated from crates/langtag_fields/src/table.rt. Do not edit.

//! Tables of subtags, which are searched for a string, ignoring case.

use crate::erased::scan::folded_number;

/// Returns whether a string is in a table, whose keys are the numbers of its strings.
#[inline]
pub(crate) fn is_among(keys: &[u64], text: &[u8]) -> bool {
    keys.binary_search(&folded_number(text)).is_ok()
}

/// Returns the value for a string. Many subtags may have one value: `indices` has the index of the
/// value of each key.
pub(crate) fn value_of(
    keys: &[u64],
    indices: &[u8],
    values: &'static [&'static str],
    text: &[u8],
) -> Option<&'static str> {
    keys.binary_search(&folded_number(text))
        .ok()
        .map(|index| values[usize::from(indices[index])])
}
