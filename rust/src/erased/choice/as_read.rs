// Generated from crates/langtag_choice/src/as_read.rt. Do not edit.

//! Lookup that reads languages as CLDR replaces them.

use crate::erased::choice::nearness::is_fallback;
use crate::erased::choice::read_range::ends_subtag;
use crate::erased::cldr::{basic_len, replaced_form};
use crate::erased::range::{is_separator, split_at_byte, split_at_either};
use crate::erased::scan::case_insensitive_eq;

/// Returns the number of bytes that lookup removes from a range to find a tag, or the length of the
/// range if it does not find the tag. It reads languages as CLDR replaces them. `written` is the
/// number for the languages as they are written.
#[inline(always)]
pub(crate) fn lost_as_read(range: &[u8], tag: &[u8], written: usize) -> usize {
    if begin_alike(range, tag) {
        return written;
    }
    removed_as_read(range, tag).unwrap_or(written)
}

/// Returns `true` only if a range and a tag have the same two bytes as their first subtags. This is
/// quick, and most tags that are compared begin as the range does.
#[inline(always)]
fn begin_alike(range: &[u8], tag: &[u8]) -> bool {
    match (range, tag) {
        ([a, b, left @ ..], [c, d, rest @ ..]) => {
            are_equal_letters((*a, *b), (*c, *d)) && (ends_subtag(left) && ends_subtag(rest))
        }
        _ => false,
    }
}

/// Returns whether two pairs of bytes are equal, and neither byte is a separator.
fn are_equal_letters(own: (u8, u8), other: (u8, u8)) -> bool {
    (own.0 == other.0 && own.1 == other.1) && (!is_separator(own.0) && !is_separator(own.1))
}

/// Returns the number of bytes that lookup removes from a range to find a tag that has another code
/// for the language of the range. Returns `None` if the tag has the same code, or if lookup does
/// not find it. Replacements of languages are searched last.
#[inline(never)]
fn removed_as_read(range: &[u8], tag: &[u8]) -> Option<usize> {
    let (own, left) = split_range(range);
    let (other, rest) = split_tag(tag);
    if !is_fallback(left, rest) || !are_two_codes(own, other) {
        return None;
    }
    Some(basic_len(left).saturating_sub(rest.len()))
}

/// Splits a range behind its first subtag.
#[inline]
fn split_range(range: &[u8]) -> (&[u8], &[u8]) {
    let (first, _) = split_at_either(range, b'-', b'_');
    (first, &range[first.len()..])
}

/// Splits a tag behind its first subtag.
#[inline]
fn split_tag(tag: &[u8]) -> (&[u8], &[u8]) {
    let (first, _) = split_at_byte(tag, b'-');
    (first, &tag[first.len()..])
}

/// Returns whether two languages differ, but are read alike.
#[inline]
fn are_two_codes(own: &[u8], other: &[u8]) -> bool {
    !case_insensitive_eq(own, other)
        && case_insensitive_eq(language_read(own), language_read(other))
}

/// Returns the language by which CLDR replaces a language, if no script or region comes with it, or
/// else the language.
#[inline(never)]
fn language_read(language: &[u8]) -> &[u8] {
    match replaced_form(language) {
        Some(form) if form.script.is_empty() && form.region.is_empty() => form.language,
        _ => language,
    }
}
