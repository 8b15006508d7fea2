// Generated from crates/langtag_c/src/viable.rt. Do not edit.

//! How many bytes of a string can begin a tag.

use crate::erased::scan::viable_len;

/// Returns the length of the longest prefix with which some tag begins: 3 for "i-no" and for "en-".
/// It is `len` if and only if the string is a tag, or more bytes can make it one.
#[inline]
pub fn langtag_viable_len(bytes: &[u8]) -> usize {
    viable_len(bytes)
}

/// Returns the length of the shortest prefix with which no tag begins, or `len` if there is none: 4
/// for "i-no", 3 for "en-". A program that reads the string byte by byte can stop there.
#[inline]
pub fn langtag_stop_len(bytes: &[u8]) -> usize {
    bytes.len().min(viable_len(bytes) + 1)
}
