// Generated from crates/langtag_c/src/items.rt. Do not edit.

//! A walk over the items of an Accept-Language header (RFC 9110 section 5.6.1.2).

use crate::calls::span::Span;
use crate::erased::matching::ElementPart;
use crate::erased::range::{is_empty_element, len_before};

/// Removes the first item that is not empty from a list, together with the comma after it.
pub(crate) fn next_item(header: &[u8], rest: &mut Span) -> Option<Span> {
    let mut left = *rest;
    while let Some(list) = left.of(header) {
        let len = len_before(list, b',');
        let item = left.take_first(len);
        if !is_empty_element(&list[..len]) {
            *rest = left;
            return Some(item);
        }
    }
    None
}

/// Returns the number of the part that is malformed.
#[inline]
pub(crate) fn number_of(part: &ElementPart) -> u32 {
    match part {
        ElementPart::Range => 2,
        ElementPart::Weight => 3,
    }
}

#[inline]
pub(crate) fn is_comma(byte: u8) -> bool {
    byte == b','
}
