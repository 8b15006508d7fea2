// Generated from crates/langtag/src/recommended_case.rt. Do not edit.

//! The string of a tag in its recommended case.

use crate::erased::text::make_recommended_case;
use alloc::string::String;
use core::mem;

/// Changes an ASCII text to its recommended case, in place.
#[inline]
pub(crate) fn put_recommended_case(text: &mut String) {
    let empty = String::new();
    let mut bytes = mem::replace(text, empty).into_bytes();
    make_recommended_case(bytes.as_mut_slice());
    *text = String::from_utf8(bytes).unwrap_or_default();
}
