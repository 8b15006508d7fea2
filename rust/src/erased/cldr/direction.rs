// Generated from crates/langtag_cldr/src/direction.rt. Do not edit.

//! Whether a script is written from right to left.

use crate::erased::cldr::keys::index_of;
use crate::erased::cldr::tables;

/// Returns whether a script is written from right to left.
#[inline]
#[must_use]
pub fn is_right_to_left_script(script: &[u8]) -> bool {
    index_of(&tables::RIGHT_TO_LEFT_KEYS, script).is_some()
}
