// Generated from crates/langtag_keyword/src/language_id.rt. Do not edit.

//! The language of the extension `t` (UTS #35, part 1, `unicode_language_id`).

use crate::erased::keyword::alphabet::{push_in_alphabet, push_lowercase};
use crate::erased::keyword::subtags::split_first;
use crate::erased::scan::{case_insensitive_eq, is_primary, is_region, is_script, is_variant};
use crate::erased::text::Output;

/// Returns whether a string is a language with an optional script, an optional region, and any
/// number of different variants.
pub(crate) fn is_language_id(text: &str) -> bool {
    let (language, rest) = split_first(text);
    let (_, rest) = take_script(rest);
    let (_, variants) = take_region(rest);
    is_unicode_language(language) && are_variants(variants)
}

/// Appends a language with its script, region and variants in lowercase, and with the variants in
/// order.
pub(crate) fn push_language_id(out: &mut Output<'_>, text: &str) {
    let (language, rest) = split_first(text);
    let (script, rest) = take_script(rest);
    let (region, variants) = take_region(rest);
    push_lowercase(out, language);
    push_optional(out, script);
    push_optional(out, region);
    push_in_alphabet(out, variants);
}

#[inline]
fn push_optional(out: &mut Output<'_>, subtag: Option<&str>) {
    if let Some(subtag) = subtag {
        push_lowercase(out, subtag);
    }
}

/// Returns whether a subtag is a language that UTS #35 allows: a primary subtag that does not have
/// four letters.
#[inline]
#[must_use]
pub fn is_unicode_language(subtag: &str) -> bool {
    is_primary(subtag.as_bytes()) && subtag.len() != 4
}

/// Returns the script at the start, if there is one, and the rest.
#[must_use]
pub fn take_script(rest: Option<&str>) -> (Option<&str>, Option<&str>) {
    if let Some(text) = rest {
        let (first, others) = split_first(text);
        if is_script(first.as_bytes()) {
            return (Some(first), others);
        }
    }
    (None, rest)
}

/// Returns the region at the start, if there is one, and the rest.
#[must_use]
pub fn take_region(rest: Option<&str>) -> (Option<&str>, Option<&str>) {
    if let Some(text) = rest {
        let (first, others) = split_first(text);
        if is_region(first.as_bytes()) {
            return (Some(first), others);
        }
    }
    (None, rest)
}

/// Returns whether all subtags are variants, and no two of them are equal.
#[inline]
fn are_variants(rest: Option<&str>) -> bool {
    rest.is_none_or(|text| are_all_variants(rest) && are_different(text))
}

/// Returns whether all subtags are variants.
fn are_all_variants(rest: Option<&str>) -> bool {
    let mut rest = rest;
    while let Some(text) = rest {
        let (subtag, others) = split_first(text);
        if !is_variant(subtag.as_bytes()) {
            return false;
        }
        rest = others;
    }
    true
}

/// Returns whether no two variants of a string are equal: whether they take as many bytes when each
/// is written once.
#[inline]
fn are_different(text: &str) -> bool {
    len_in_alphabet(text, &mut []) == text.len()
}

/// Returns the length of the string of some variants in alphabetical order, each once. It is
/// written to a buffer if it fits.
#[inline]
fn len_in_alphabet(text: &str, buffer: &mut [u8]) -> usize {
    let mut out = Output::new(buffer);
    push_in_alphabet(&mut out, Some(text));
    out.len()
}

/// Returns whether a variant is among the subtags of a string, ignoring case.
#[must_use]
pub fn is_among(rest: Option<&str>, variant: &[u8]) -> bool {
    let mut rest = rest;
    while let Some(text) = rest {
        let (other, others) = split_first(text);
        if case_insensitive_eq(variant, other.as_bytes()) {
            return true;
        }
        rest = others;
    }
    false
}
