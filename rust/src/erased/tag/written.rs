// Generated from crates/langtag/src/written.rt. Do not edit.

//! Tags whose bytes were written.

use crate::erased::tag::lang_tag_buf::LangTagBuf;
use alloc::string::String;
use alloc::vec::Vec;

/// Converts bytes that are known to be a tag into that tag.
#[inline]
#[must_use]
pub fn tag_of(bytes: Vec<u8>) -> LangTagBuf {
    let Ok(text) = String::from_utf8(bytes) else {
        unreachable!()
    };
    // It is parsed, although it is known to be a tag: a tag also stores where its parts end.
    let Ok(tag) = LangTagBuf::new(text) else {
        unreachable!()
    };
    tag
}
