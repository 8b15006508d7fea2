// Generated from crates/langtag_text/src/alias.rt. Do not edit.

//! Looking strings up in lists of replacements.

use crate::erased::scan::case_insensitive_eq;

/// Returns the replacement of a string, if there is one.
#[inline]
#[must_use]
pub fn alias_for(
    rows: &'static [(&'static str, &'static str)],
    text: &[u8],
) -> Option<&'static str> {
    let mut rows = rows;
    while let [(old, new), others @ ..] = rows {
        if case_insensitive_eq(old.as_bytes(), text) {
            return Some(new);
        }
        rows = others;
    }
    None
}

/// Returns the replacement of a type of a key, if there is one.
#[inline]
#[must_use]
pub fn type_alias_for(
    rows: &'static [(&'static str, &'static str, &'static str)],
    key: &[u8],
    text: &[u8],
) -> Option<&'static str> {
    let mut rows = rows;
    while let [(of, old, new), others @ ..] = rows {
        if case_insensitive_eq(of.as_bytes(), key) && case_insensitive_eq(old.as_bytes(), text) {
            return Some(new);
        }
        rows = others;
    }
    None
}
