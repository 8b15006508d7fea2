// Generated from crates/langtag_c/src/extension_walk.rt. Do not edit.

//! Where the subtags of an extension are in a tag (RFC 5646 section 2.2.6).

use crate::calls::span::Span;
use crate::calls::tag::normal_tag_of;
use crate::erased::extension::first_extension_end;
use crate::erased::keyword::{KeySet, Keys};
use crate::erased::scan::{case_insensitive_eq, into_smallcase, segment_end};

/// Where a key and its value are.
pub(crate) struct KeyPlace {
    pub key: Span,
    pub value: Span,
}

/// Returns the subtags of the first extension with a singleton, or an empty span if there is none.
#[inline]
pub(crate) fn extension_subtags(bytes: &[u8], singleton: u8) -> Span {
    let Some(extensions) = extensions_of(bytes) else {
        return Span { start: 0, len: 0 };
    };
    find_extension(bytes, extensions, singleton)
}

/// Returns the extensions, if the bytes are a normal tag.
#[inline]
fn extensions_of(bytes: &[u8]) -> Option<Span> {
    let ends = normal_tag_of(bytes)?.ends();
    Some(Span::between(ends.variants, ends.extensions))
}

/// Returns the subtags of the first of several extensions that has the given singleton, or an empty
/// span if none has it.
fn find_extension(bytes: &[u8], extensions: Span, singleton: u8) -> Span {
    let mut rest = extensions;
    while let Some(part) = rest.of(bytes) {
        let extension = rest.take_first(first_extension_end(part));
        if into_smallcase(part[0]) == into_smallcase(singleton) {
            return extension.without_singleton();
        }
    }
    Span { start: 0, len: 0 }
}

/// Returns the subtags before the first key.
#[inline]
pub(crate) fn before_key(bytes: &[u8], subtags: Span, keys: Keys) -> Span {
    Span {
        start: subtags.start,
        len: len_before_key(bytes, subtags, keys).saturating_sub(1),
    }
}

/// Returns the number of bytes of the subtags before the first key, each with a hyphen after it.
fn len_before_key(bytes: &[u8], subtags: Span, keys: Keys) -> usize {
    let mut rest = subtags;
    let mut len = 0;
    while let Some((_, subtag)) = take_subtag(bytes, &mut rest) {
        if keys.has(subtag) {
            return len;
        }
        len += subtag.len() + 1;
    }
    len
}

/// Returns the value of the first key that equals a string, ignoring case.
pub(crate) fn value_of(bytes: &[u8], subtags: Span, keys: Keys, key: &[u8]) -> Option<Span> {
    let mut rest = subtags;
    while let Some((_, subtag)) = take_subtag(bytes, &mut rest) {
        if keys.has(subtag) && case_insensitive_eq(subtag, key) {
            return Some(before_key(bytes, rest, keys));
        }
    }
    None
}

/// Returns the first key after the first `passed` subtags that equals no subtag before it, with its
/// value. `passed` then counts the subtags up to and including that key.
pub(crate) fn next_key(
    bytes: &[u8],
    subtags: Span,
    keys: Keys,
    passed: &mut usize,
) -> Option<KeyPlace> {
    let mut rest = subtags;
    let mut met = KeySet::new();
    let mut count = 0;
    while let Some((key, subtag)) = take_subtag(bytes, &mut rest) {
        let is_new = met.insert(subtag);
        if count >= *passed && keys.has(subtag) && is_new {
            *passed = count + 1;
            let value = before_key(bytes, rest, keys);
            return Some(KeyPlace { key, value });
        }
        count += 1;
    }
    None
}

/// Removes the first of some subtags, with the hyphen after it. Returns its span and its text.
fn take_subtag<'a>(bytes: &'a [u8], rest: &mut Span) -> Option<(Span, &'a [u8])> {
    let part = rest.of(bytes)?;
    let len = segment_end(part, 0);
    let subtag = rest.take_first(len);
    Some((subtag, &part[..len]))
}
