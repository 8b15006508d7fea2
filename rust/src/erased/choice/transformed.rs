// Generated from crates/langtag_choice/src/transformed.rt. Do not edit.

//! Whether a tag or a range has the extension t (RFC 6497).

use crate::erased::range::{is_separator, split_at_either};
use crate::erased::scan::case_insensitive_eq;

/// Returns whether a range or a tag has the extension t, which translations by a machine have.
#[inline]
pub(crate) fn is_transformed(text: &[u8]) -> bool {
    !is_short(text) && has_extension_t(text)
}

/// Returns `true` only if a string has two bytes or five, and no subtag of a single byte. This is
/// quick, and most tags are such as `en` or `en-US`.
fn is_short(text: &[u8]) -> bool {
    match text {
        [a, b] => are_plain(*a, *b),
        [a, b, _, c, d] => are_all_plain((*a, *b), (*c, *d)),
        _ => false,
    }
}

/// Returns whether neither of two bytes is a separator.
#[inline]
fn are_plain(a: u8, b: u8) -> bool {
    !is_separator(a) && !is_separator(b)
}

/// Returns whether none of four bytes is a separator.
#[inline]
fn are_all_plain(first: (u8, u8), last: (u8, u8)) -> bool {
    are_plain(first.0, first.1) && are_plain(last.0, last.1)
}

/// Returns whether a string has the subtag `t`, and no `x` before it.
fn has_extension_t(text: &[u8]) -> bool {
    let mut left = text;
    while !left.is_empty() {
        let (subtag, rest) = split_at_either(left, b'-', b'_');
        if case_insensitive_eq(b"x", subtag) {
            return false;
        }
        if case_insensitive_eq(b"t", subtag) {
            return true;
        }
        left = rest;
    }
    false
}
