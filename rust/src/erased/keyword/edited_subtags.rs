// Generated from crates/langtag_keyword/src/edited_subtags.rt. Do not edit.

//! Writing the subtags of the extension `u` with a keyword set or removed.

use crate::erased::keyword::alphabet::is_before;
use crate::erased::keyword::keys::Keys;
use crate::erased::keyword::subtags::{nonempty, split_first};
use crate::erased::scan::{case_insensitive_eq, Subtags};
use crate::erased::text::Output;

/// Returns whether a string has a subtag that belongs to no keyword of a key.
#[inline]
pub(crate) fn has_others(text: &str, key: &str) -> bool {
    let mut is_inside = false;
    for subtag in Subtags::new(text) {
        is_inside = belongs(key, is_inside, subtag);
        if !is_inside {
            return true;
        }
    }
    false
}

/// Appends the subtags that belong to no keyword of a key.
pub(crate) fn push_without_keyword(out: &mut Output<'_>, rest: Option<&str>, key: &str) {
    let mut rest = rest;
    let mut is_inside = false;
    while let Some(text) = rest {
        let (subtag, after) = split_first(text);
        is_inside = belongs(key, is_inside, subtag);
        if !is_inside {
            out.push_subtag(subtag.as_bytes());
        }
        rest = after;
    }
}

/// Returns whether a subtag belongs to a keyword of a key, given whether the subtag before it does.
#[inline]
fn belongs(key: &str, is_inside: bool, subtag: &str) -> bool {
    if Keys::Unicode.has(subtag.as_bytes()) {
        return case_insensitive_eq(subtag.as_bytes(), key.as_bytes());
    }
    is_inside
}

/// Appends the subtags with a keyword set.
pub(crate) fn push_with_keyword(out: &mut Output<'_>, text: &str, key: &str, value: &str) {
    let standing = standing_key(text, key);
    let mut rest = nonempty(text);
    while let Some(text) = rest {
        let (subtag, after) = split_first(text);
        if is_place(key, standing, subtag) {
            push_keyword(out, standing.unwrap_or(key), value);
            return push_without_keyword(out, rest, key);
        }
        out.push_subtag(subtag.as_bytes());
        rest = after;
    }
    push_keyword(out, standing.unwrap_or(key), value);
}

/// Returns a key as it is written among subtags, or `None` if it is absent.
#[inline]
fn standing_key<'a>(text: &'a str, key: &str) -> Option<&'a str> {
    Subtags::new(text).find(|subtag| is_this_key(key, subtag))
}

/// Returns whether a subtag is the given key, ignoring case.
#[inline]
fn is_this_key(key: &str, subtag: &str) -> bool {
    Keys::Unicode.has(subtag.as_bytes()) && case_insensitive_eq(subtag.as_bytes(), key.as_bytes())
}

/// Returns whether a new keyword goes here: to the key as it stands or, if it is absent, before the
/// first greater key.
fn is_place(key: &str, standing: Option<&str>, subtag: &str) -> bool {
    match standing {
        Some(_) => is_this_key(key, subtag),
        None => {
            Keys::Unicode.has(subtag.as_bytes()) && is_before(key.as_bytes(), subtag.as_bytes())
        }
    }
}

/// Appends a key and the subtags of its value.
#[inline]
fn push_keyword(out: &mut Output<'_>, key: &str, value: &str) {
    out.push_subtag(key.as_bytes());
    for subtag in Subtags::new(value) {
        out.push_subtag(subtag.as_bytes());
    }
}
