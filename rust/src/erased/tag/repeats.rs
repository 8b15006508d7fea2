// Generated from crates/langtag/src/repeats.rt. Do not edit.

//! Singletons that occur twice in a tag. Such a tag is well formed but not valid (RFC 5646 section
//! 2.2.6).

use crate::erased::extension::Extensions;
use crate::erased::scan::into_smallcase;

/// Returns the index of the first of these extensions whose singleton equals the singleton of an
/// earlier extension, ignoring case.
#[inline]
pub(crate) fn first_repeated_singleton(extensions: Extensions<'_>) -> Option<usize> {
    let mut seen = [false; 128];
    for (index, extension) in extensions.iter().enumerate() {
        let byte = into_smallcase(extension.singleton().unwrap()) as usize;
        if seen[byte] {
            return Some(index);
        }
        seen[byte] = true;
    }
    None
}
