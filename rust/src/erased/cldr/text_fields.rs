// Generated from crates/langtag_cldr/src/text_fields.rt. Do not edit.

//! The fields of a string that need not be a tag.

use crate::erased::cldr::fields::{known, or_other};
use crate::erased::cldr::replacement::replacement;
use crate::erased::cldr::tag_fields::TagFields;
use crate::erased::fields::is_prefix_of;
use crate::erased::range::{is_separator, split_at_either};
use crate::erased::scan::{into_smallcase, is_extended, is_primary, is_region, is_script};

impl<'a> TagFields<'a> {
    /// Returns the fields of a string in which `_` is read as `-`, or `None` if it does not begin
    /// with a language. A tag that the registry replaces as a whole has the fields of its
    /// replacement.
    #[inline(always)]
    pub(crate) fn of_text(text: &'a [u8]) -> Option<TagFields<'a>> {
        let (first, rest) = current_parts(text);
        if !is_primary(first) {
            return None;
        }
        let (language, marked, rest) = language_and_mark(first, rest);
        let (script, rest) = script_before(rest);
        let region = region_before(rest);
        Some(TagFields {
            language,
            script: known(b"Zzzz", script),
            region: known(b"ZZ", or_other(region, marked)),
        })
    }
}

/// Returns the first subtag of a string, or of the tag that replaces it as a whole, and the rest.
#[inline(always)]
fn current_parts(text: &[u8]) -> (&[u8], &[u8]) {
    let (first, rest) = split_at_either(text, b'-', b'_');
    match replacement(text, first, rest) {
        Some(tag) => split_at_either(tag, b'-', b'_'),
        None => (first, rest),
    }
}

/// Returns the language of a string that begins with a primary language, the region that Android
/// writes after it, and the rest of the string.
#[inline(always)]
fn language_and_mark<'a>(primary: &'a [u8], text: &'a [u8]) -> (&'a [u8], &'a [u8], &'a [u8]) {
    let (extended, rest) = last_extended(text);
    if extends(primary, extended) {
        return (extended, b"", rest);
    }
    (known(b"und", primary), first_marked(text), rest)
}

/// Returns the last extended language at the start of the string, which is empty if there is none,
/// and the rest of the string.
fn last_extended(text: &[u8]) -> (&[u8], &[u8]) {
    let mut language: &[u8] = b"";
    let mut left = text;
    while let Some((subtag, rest)) = next_subtag(left) {
        if !is_extended(subtag) {
            return (language, left);
        }
        language = subtag;
        left = rest;
    }
    (language, left)
}

/// Returns whether an extended language, which may be empty, is registered for a language.
#[inline]
fn extends(language: &[u8], extended: &[u8]) -> bool {
    !extended.is_empty() && is_prefix_of(language, extended)
}

/// Returns the region in the first subtag as Android writes it.
#[inline]
fn first_marked(text: &[u8]) -> &[u8] {
    if !may_be_marked(text) {
        return b"";
    }
    match next_subtag(text) {
        Some((subtag, _)) => after_mark(subtag),
        None => b"",
    }
}

/// Returns `false` only if the first byte of a string shows that no region is in its first subtag
/// as Android writes it.
fn may_be_marked(text: &[u8]) -> bool {
    match text {
        [first, ..] => into_smallcase(*first) == b'r' || *first == b'*' || is_separator(*first),
        [] => false,
    }
}

/// Returns the region after the letter `r`, or the empty string if the subtag is none of these.
#[must_use]
pub fn after_mark(subtag: &[u8]) -> &[u8] {
    let [mark, region @ ..] = subtag else {
        return b"";
    };
    if into_smallcase(*mark) == b'r' && is_region(region) {
        region
    } else {
        b""
    }
}

/// Returns the script at the start, and the rest of the string.
#[inline]
fn script_before(text: &[u8]) -> (&[u8], &[u8]) {
    match next_subtag(text) {
        Some((subtag, rest)) if is_script(subtag) => (subtag, rest),
        _ => (b"", text),
    }
}

/// Returns the region at the start.
#[inline]
fn region_before(text: &[u8]) -> &[u8] {
    match next_subtag(text) {
        Some((subtag, _)) if is_region(subtag) => subtag,
        _ => b"",
    }
}

/// Returns the first subtag that is neither empty nor `*`, and the string after it.
fn next_subtag(text: &[u8]) -> Option<(&[u8], &[u8])> {
    let mut left = text;
    while !left.is_empty() {
        let (subtag, rest) = split_at_either(left, b'-', b'_');
        if counts(subtag) {
            return Some((subtag, rest));
        }
        left = rest;
    }
    None
}

#[inline]
fn counts(subtag: &[u8]) -> bool {
    !matches!(subtag, [] | [b'*'])
}
