// Generated from crates/langtag_canonical/src/extension_order.rt. Do not edit.

//! The order of extensions (RFC 5646 section 4.5): by their singletons, ignoring case.

use crate::erased::extension::{folded_singleton, Extensions};

/// Returns whether extensions are in order, which means that no singleton is less than the
/// singleton before it.
#[inline]
pub(crate) fn are_in_order(extensions: Extensions<'_>) -> bool {
    let mut last = 0;
    for extension in extensions.iter() {
        let singleton = folded_singleton(extension);
        if singleton < last {
            return false;
        }
        last = singleton;
    }
    true
}
