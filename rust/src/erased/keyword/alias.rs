// Generated from crates/langtag_keyword/src/alias.rt. Do not edit.

//! Replacing types and subdivisions (UTS #35, part 1, Annex C).

use crate::erased::keyword::alias_tables as tables;
use crate::erased::keyword::keys::Keys;
use crate::erased::scan::case_insensitive_eq;
use crate::erased::text::alias_for;

/// A key, and its types that are replaced, each with its replacement.
type KeyAliases = (&'static str, &'static [(&'static str, &'static str)]);

/// Returns the canonical value of a key, except that its case may differ.
#[inline]
pub(crate) fn canonical_value<'a>(keys: Keys, key: &[u8], value: &'a str) -> &'a str {
    match keys {
        Keys::Unicode => without_true(unicode_value(key, value)),
        Keys::Transform => transform_value(key, value),
    }
}

/// Returns a value of `u`, or its replacement.
#[inline]
fn unicode_value<'a>(key: &[u8], value: &'a str) -> &'a str {
    if has_subdivision(key) {
        return subdivision(value);
    }
    unicode_type(key, value)
}

/// Returns whether the values of a key are subdivisions.
#[inline]
fn has_subdivision(key: &[u8]) -> bool {
    case_insensitive_eq(key, b"rg") || case_insensitive_eq(key, b"sd")
}

/// Returns a value, or the empty string for `true`.
#[inline]
fn without_true(value: &str) -> &str {
    if case_insensitive_eq(value.as_bytes(), b"true") {
        return "";
    }
    value
}

#[inline]
fn subdivision(value: &str) -> &str {
    alias_for(&tables::SUBDIVISION_ALIASES, value.as_bytes()).unwrap_or(value)
}

#[inline]
fn unicode_type<'a>(key: &[u8], value: &'a str) -> &'a str {
    key_alias_for(&tables::UNICODE_TYPE_ALIASES, key, value.as_bytes()).unwrap_or(value)
}

#[inline]
fn transform_value<'a>(key: &[u8], value: &'a str) -> &'a str {
    key_alias_for(&tables::TRANSFORM_TYPE_ALIASES, key, value.as_bytes()).unwrap_or(value)
}

/// Returns the replacement of a type of a key, if there is one.
#[inline]
fn key_alias_for(rows: &'static [KeyAliases], key: &[u8], text: &[u8]) -> Option<&'static str> {
    let mut rows = rows;
    while let [(of, types), others @ ..] = rows {
        if case_insensitive_eq(of.as_bytes(), key) {
            if let Some(new) = alias_for(types, text) {
                return Some(new);
            }
        }
        rows = others;
    }
    None
}
