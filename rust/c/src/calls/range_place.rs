// Generated from crates/langtag_c/src/range_place.rt. Do not edit.

//! Where a range is in an Accept-Language header (RFC 9110 section 12.5.4), by the ranges before
//! it.

use crate::calls::items::is_comma;
use crate::calls::span::Span;
use crate::erased::range::split_wanted;

/// Returns the span of the range that has this number of ranges before it in a header.
pub(crate) fn range_at(header: &[u8], place: usize) -> Option<Span> {
    let mut start = 0;
    let mut left = place;
    for item in header.split(|byte| is_comma(*byte)) {
        if let Some((wanted, _)) = split_wanted(item) {
            if left == 0 {
                return Some(Span {
                    start: start + spaces_before(item),
                    len: wanted.bytes.len(),
                });
            }
            left -= 1;
        }
        start += item.len() + 1;
    }
    None
}

/// Returns the number of spaces and tabs at the start of an item.
#[inline]
fn spaces_before(item: &[u8]) -> usize {
    first_filled(item).unwrap_or(item.len())
}

/// Returns the index of the first byte that is neither a space nor a tab.
#[inline]
fn first_filled(item: &[u8]) -> Option<usize> {
    item.iter().position(|byte| !is_space(*byte))
}

#[inline]
fn is_space(byte: u8) -> bool {
    byte == b' ' || byte == b'\t'
}
