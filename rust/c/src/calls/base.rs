// Generated from crates/langtag_c/src/base.rt. Do not edit.

//! The part of a tag before its extensions and private use.

use crate::calls::tag::tag_of;

/// Returns the length of a tag without its extensions and private use, which is 10 for
/// de-CH-1996-u-co-phonebk-x-mine. A private-use tag and an irregular tag have no extensions, so
/// this is their length. Returns 0 for bytes that are not a tag.
#[inline]
pub fn langtag_base_len(bytes: &[u8]) -> usize {
    match tag_of(bytes) {
        Some(tag) => tag.base().as_str().len(),
        None => 0,
    }
}
