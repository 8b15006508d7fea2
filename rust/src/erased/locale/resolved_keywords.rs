// Generated from crates/langtag_locale/src/resolved_keywords.rt. Do not edit.

//! The keywords of a range put among the subtags of the extension `u` of a tag.

use crate::erased::keyword::{
    is_among, is_before, key_of, nonempty, offer_keys, push_keyword, split_first, value_in, Keys,
    LeastNumbers, FEW,
};
use crate::erased::locale::wish::Wish;
use crate::erased::scan::Subtags;
use crate::erased::tag::case_insensitive_eq;
use crate::erased::text::Output;

/// Appends the subtags of a `u` that stay, with the keywords of the range. Each keyword stands
/// before the first greater key.
pub(crate) fn push_resolved(out: &mut Output<'_>, wish: Wish<'_>, text: &str) {
    let mut least = LeastNumbers::<FEW>::new();
    let mut rest = nonempty(text);
    let mut more = true;
    while more {
        offer_keys(&mut least, wish.unicode, Keys::Unicode);
        least.sort();
        rest = push_each(out, wish, rest, least.kept());
        more = least.advance();
    }
    push_remaining(out, wish, rest);
}

/// Appends the keywords whose keys have these numbers, each after the subtags that stay before it.
/// Returns the rest.
fn push_each<'a>(
    out: &mut Output<'_>,
    wish: Wish<'_>,
    rest: Option<&'a str>,
    numbers: &[u64],
) -> Option<&'a str> {
    let mut rest = rest;
    for number in numbers {
        let key = key_of(*number);
        rest = push_before(out, wish, rest, &key);
        push_keyword(
            out,
            Keys::Unicode,
            key,
            value_in(wish.unicode, Keys::Unicode, &key),
        );
    }
    rest
}

/// Appends the subtags that stay, up to the first greater key. Returns the rest, which begins with
/// that key.
fn push_before<'a>(
    out: &mut Output<'_>,
    wish: Wish<'_>,
    rest: Option<&'a str>,
    key: &[u8],
) -> Option<&'a str> {
    let mut rest = rest;
    let mut is_removed = false;
    while let Some(text) = rest {
        let (subtag, after) = split_first(text);
        is_removed = belongs_to_removed(wish, is_removed, subtag);
        if !is_removed {
            if is_greater_key(key, subtag.as_bytes()) {
                return rest;
            }
            out.push_subtag(subtag.as_bytes());
        }
        rest = after;
    }
    None
}

/// Returns whether a subtag is a key that is greater than a key.
#[inline]
fn is_greater_key(key: &[u8], subtag: &[u8]) -> bool {
    Keys::Unicode.has(subtag) && is_before(key, subtag)
}

/// Appends the subtags that stay.
fn push_remaining(out: &mut Output<'_>, wish: Wish<'_>, rest: Option<&str>) {
    let mut rest = rest;
    let mut is_removed = false;
    while let Some(text) = rest {
        let (subtag, after) = split_first(text);
        is_removed = belongs_to_removed(wish, is_removed, subtag);
        if !is_removed {
            out.push_subtag(subtag.as_bytes());
        }
        rest = after;
    }
}

/// Returns whether a `u` with the keywords of the range has no subtags.
#[inline]
pub(crate) fn is_resolved_empty(wish: Wish<'_>, text: &str) -> bool {
    if has_key(wish.unicode) {
        return false;
    }
    !has_remaining(wish, text)
}

/// Returns whether a string has a key.
#[inline]
fn has_key(text: &str) -> bool {
    for subtag in Subtags::new(text) {
        if Keys::Unicode.has(subtag.as_bytes()) {
            return true;
        }
    }
    false
}

/// Returns whether any subtag stays.
#[inline]
fn has_remaining(wish: Wish<'_>, text: &str) -> bool {
    let mut is_removed = false;
    for subtag in Subtags::new(text) {
        is_removed = belongs_to_removed(wish, is_removed, subtag);
        if !is_removed {
            return true;
        }
    }
    false
}

/// Returns whether a subtag belongs to a keyword that is removed, given whether the subtag before
/// it does.
#[inline]
fn belongs_to_removed(wish: Wish<'_>, is_removed: bool, subtag: &str) -> bool {
    if Keys::Unicode.has(subtag.as_bytes()) {
        return is_replaced(wish, subtag.as_bytes());
    }
    is_removed
}

/// Returns whether the keywords of a key are removed.
#[inline]
fn is_replaced(wish: Wish<'_>, key: &[u8]) -> bool {
    is_among(nonempty(wish.unicode), key) || (wish.removes_subdivisions() && has_subdivision(key))
}

/// Returns whether the values of a key are subdivisions.
#[inline]
fn has_subdivision(key: &[u8]) -> bool {
    case_insensitive_eq(key, b"rg") || case_insensitive_eq(key, b"sd")
}
