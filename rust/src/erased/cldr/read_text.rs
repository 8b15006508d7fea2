// Generated from crates/langtag_cldr/src/read_text.rt. Do not edit.

//! Language ranges as a lookup reads them: `_` is read as `-`, and each `-*` is left out.

use crate::erased::scan::into_smallcase;

/// Returns whether a range, with `_` read as `-` and without each `-*`, equals a string, ignoring
/// case.
#[inline]
#[must_use]
pub fn are_alike(range: &[u8], text: &[u8]) -> bool {
    let (left, rest) = after_common(range, text);
    left.is_empty() && rest.is_empty()
}

/// Returns what remains of a range and of a string after their common beginning.
#[must_use]
pub fn after_common<'a, 't>(range: &'a [u8], text: &'t [u8]) -> (&'a [u8], &'t [u8]) {
    let mut left = without_stars(range);
    let mut rest = text;
    while let ([first, after_first @ ..], [byte, after_byte @ ..]) = (left, rest) {
        if into_smallcase(hyphened(*first)) != into_smallcase(*byte) {
            break;
        }
        left = without_stars(after_first);
        rest = after_byte;
    }
    (left, rest)
}

/// Returns the length of a range without each `-*`.
#[must_use]
pub fn basic_len(range: &[u8]) -> usize {
    let mut len = 0;
    let mut left = without_stars(range);
    while let [_, rest @ ..] = left {
        len += 1;
        left = without_stars(rest);
    }
    len
}

/// Returns a range without each `-*` at its start.
#[inline]
pub(crate) fn without_stars(range: &[u8]) -> &[u8] {
    let mut left = range;
    while begins_with_star(left) {
        left = &left[2..];
    }
    left
}

/// Returns whether a range begins with `-*` or `_*`.
#[inline]
fn begins_with_star(range: &[u8]) -> bool {
    matches!(range, [b'-' | b'_', b'*', ..])
}

/// Returns `-` for `_`, and any other byte unchanged.
#[inline]
fn hyphened(byte: u8) -> u8 {
    if byte == b'_' {
        b'-'
    } else {
        byte
    }
}
