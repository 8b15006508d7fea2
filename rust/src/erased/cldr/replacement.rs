// Generated from crates/langtag_cldr/src/replacement.rt. Do not edit.

//! Tags that the registry replaces as a whole (RFC 5646 section 3.1.7), such as `i-klingon` and
//! `zh-hakka`, also with extensions and private use. Most strings show by their first bytes that
//! they are none of these. What each choice runs many times is inlined.

use crate::erased::cldr::read_text::{after_common, without_stars};
use crate::erased::fields::{preferred_tags, preferred_text};
use crate::erased::range::is_separator;
use crate::erased::scan::{case_insensitive_eq, into_smallcase};

/// Returns the tag that replaces a string as a whole, given the first subtag of the string and the
/// rest: `hak` for `zh_hakka`.
#[inline(always)]
pub(crate) fn replacement(text: &[u8], first: &[u8], rest: &[u8]) -> Option<&'static [u8]> {
    if may_be_replaced(first, rest) {
        preferred(text)
    } else {
        None
    }
}

/// Returns the Preferred-Value of the whole tag that equals the base of a range. Tags are searched
/// by halves: only a range can have `_` or `*`.
#[inline(never)]
fn preferred(range: &[u8]) -> Option<&'static [u8]> {
    let value = if is_plain(range) {
        preferred_text(base(range))
    } else {
        preferred_as_read(range)
    };
    Some(value?.as_bytes())
}

/// Returns whether a range has neither `_` nor `*`, so that it is read as it is written.
#[inline]
fn is_plain(range: &[u8]) -> bool {
    range.iter().all(|byte| *byte != b'*' && *byte != b'_')
}

/// Returns a string without extensions and private use.
#[inline]
fn base(text: &[u8]) -> &[u8] {
    let mut len = 0;
    while !is_baseless(&text[len..]) {
        len += 1;
    }
    &text[..len]
}

/// Returns the Preferred-Value of the whole tag that equals the base of a range, which may have `_`
/// and `*`.
#[inline]
fn preferred_as_read(range: &[u8]) -> Option<&'static str> {
    let (_, value) = first_alike(preferred_tags(), range)?;
    Some(value)
}

/// Returns the first pair with whose first string a range begins, if no more than extensions and
/// private use follow.
#[inline]
fn first_alike(
    pairs: &'static [(&'static str, &'static str)],
    range: &[u8],
) -> Option<(&'static str, &'static str)> {
    pairs
        .iter()
        .copied()
        .find(|(text, _)| begins_with_base(range, text.as_bytes()))
}

/// Returns whether a range begins with a string, ignoring case, and no more than extensions and
/// private use follow.
#[inline]
fn begins_with_base(range: &[u8], text: &[u8]) -> bool {
    let (left, rest) = after_common(range, text);
    rest.is_empty() && is_baseless(left)
}

/// Returns whether the rest of a range is empty, or begins with a separator and a subtag of one
/// character.
#[inline]
fn is_baseless(range: &[u8]) -> bool {
    match range {
        [mark, rest @ ..] => is_separator(*mark) && begins_single(rest),
        [] => true,
    }
}

/// Returns whether a range begins with a subtag of one character.
#[inline]
fn begins_single(range: &[u8]) -> bool {
    match without_stars(range) {
        [byte, rest @ ..] => !is_separator(*byte) && ends_subtag(rest),
        [] => false,
    }
}

/// Returns whether a range is empty or begins with a separator.
#[inline]
fn ends_subtag(range: &[u8]) -> bool {
    match without_stars(range) {
        [mark, ..] => is_separator(*mark),
        [] => true,
    }
}

/// Returns `false` only if the first subtag of a string, and the rest, show that the string is not
/// replaced as a whole.
#[inline(always)]
fn may_be_replaced(first: &[u8], rest: &[u8]) -> bool {
    match first {
        [] | [_] => !rest.is_empty(),
        [first, second] => may_change_language(rest) && begins_replaced(*first, *second),
        [_, _, _] => case_insensitive_eq(first, b"sgn") || case_insensitive_eq(first, b"art"),
        _ => false,
    }
}

/// Returns whether a tag with these two letters at its start is replaced as a whole.
fn begins_replaced(first: u8, second: u8) -> bool {
    matches!(
        (into_smallcase(first), into_smallcase(second)),
        (b'a', b'r') | (b'e', b'n') | (b'n', b'o') | (b's', b'g') | (b'z', b'h')
    )
}

/// Returns `false` only if a string after a language of two letters keeps this language: it begins
/// with no extended language, and no tag that is replaced as a whole goes on like this.
#[inline(always)]
#[must_use]
pub fn may_change_language(text: &[u8]) -> bool {
    match text {
        [first, ..] if !begins_counted(*first) => true,
        [_, mark, next, ..] if is_separator(*mark) => !begins_counted(*next),
        [first, second, mark, next, ..] if is_separator(*mark) => {
            !begins_counted(*next) || is_british(*first, *second)
        }
        [first, _, _] => is_letter(*first),
        [first, _, _, fourth, rest @ ..] => {
            is_letter(*first) && (is_separator(*fourth) || ends_soon(rest))
        }
        _ => false,
    }
}

/// Returns whether two letters are `gb`, in any case.
#[inline]
fn is_british(first: u8, second: u8) -> bool {
    (into_smallcase(first), into_smallcase(second)) == (b'g', b'b')
}

/// Returns `false` only if a string is empty, or has a second byte that is neither a separator nor
/// `*`.
#[inline]
fn ends_soon(text: &[u8]) -> bool {
    match text {
        [] => false,
        [_] => true,
        [_, second, ..] => !begins_counted(*second),
    }
}

/// Returns whether a byte is the first byte of a subtag that counts.
#[inline]
fn begins_counted(byte: u8) -> bool {
    !is_separator(byte) && byte != b'*'
}

#[inline]
fn is_letter(byte: u8) -> bool {
    byte.is_ascii_alphabetic()
}
