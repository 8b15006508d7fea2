// Generated from crates/langtag_keyword/src/subtags.rt. Do not edit.

//! The subtags of an extension, as one string that is read from its start.

use crate::erased::keyword::keys::Keys;
use crate::erased::scan::{case_insensitive_eq, segment_end, Subtags};

/// Returns a string, or `None` if it is empty and so has no subtags.
#[inline]
#[must_use]
pub fn nonempty(text: &str) -> Option<&str> {
    if text.is_empty() {
        return None;
    }
    Some(text)
}

/// Returns the first subtag of a string and, if there are more subtags, the rest of the string
/// after the hyphen.
#[must_use]
pub fn split_first(text: &str) -> (&str, Option<&str>) {
    let end = segment_end(text.as_bytes(), 0);
    if end == text.len() {
        return (text, None);
    }
    (&text[..end], Some(&text[end + 1..]))
}

/// Returns the string before the first key.
#[inline]
#[must_use]
pub fn before_key(rest: Option<&str>, keys: Keys) -> &str {
    rest.map_or("", |text| cut_before_key(text, keys))
}

/// Returns the subtags before the first key of a string, if there are any.
#[inline]
#[must_use]
pub fn preceding(text: &str, keys: Keys) -> Option<&str> {
    nonempty(before_key(nonempty(text), keys))
}

/// Returns the string before the first key of a string.
#[inline]
fn cut_before_key(text: &str, keys: Keys) -> &str {
    let len = len_before_key(text, keys);
    &text[..len.saturating_sub(1)]
}

/// Returns the number of bytes that the subtags before the first key take, each with a hyphen after
/// it.
fn len_before_key(text: &str, keys: Keys) -> usize {
    let mut len = 0;
    for subtag in Subtags::new(text) {
        if keys.has(subtag.as_bytes()) {
            return len;
        }
        len += subtag.len() + 1;
    }
    len
}

/// Returns whether a subtag equals one of the first `count` subtags of a string, ignoring case.
#[inline]
#[must_use]
pub fn is_earlier_subtag(text: &str, count: usize, subtag: &str) -> bool {
    Subtags::new(text)
        .take(count)
        .any(|earlier| case_insensitive_eq(subtag.as_bytes(), earlier.as_bytes()))
}

/// Returns the value of a key among subtags.
#[must_use]
pub fn value_in<'a>(text: &'a str, keys: Keys, key: &[u8]) -> Option<&'a str> {
    let mut rest = nonempty(text);
    while let Some(text) = rest {
        let (subtag, after) = split_first(text);
        if keys.has(subtag.as_bytes()) && case_insensitive_eq(subtag.as_bytes(), key) {
            return Some(before_key(after, keys));
        }
        rest = after;
    }
    None
}
