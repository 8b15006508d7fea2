// Generated from crates/langtag_posix/src/posix_text.rt. Do not edit.

//! The string that a locale name is read as, except for its script and its variant: its language
//! and territory, and its extensions.

use crate::erased::posix::keyword_names::{are_keywords, push_keywords};
use crate::erased::posix::platform_names::{is_of_language, read_place, MOST, MOST_READ};
use crate::erased::range::{locale_place, split_at_byte, split_at_either};
use crate::erased::scan::{case_insensitive_eq, is_script};
use crate::erased::tag::LangTag;
use crate::erased::text::Output;

/// The greatest length of the string that a name is read as, in bytes.
pub(crate) const MOST_NAMED: usize = 260;

/// Returns the tag that a name is read as, written into `room`, without the script and the variant
/// that the name gives.
pub(crate) fn tag_of_name<'a>(name: &[u8], room: &'a mut [u8; MOST_NAMED]) -> Option<LangTag<'a>> {
    let place = place_of(name);
    if place.len() > MOST {
        return None;
    }
    let (mut whole, mut short) = ([0; MOST], [0; MOST_READ]);
    let (front, modifier) = front_and_modifier(name);
    if !has_good_codeset(behind_front(name, front)) {
        return None;
    }
    let extensions = extensions_behind(front);
    let place = without_java_field(read_place(place, &mut whole, &mut short), extensions);
    if !may_follow(place, extensions, are_keywords(modifier)) {
        return None;
    }
    let len = put_text(place, extensions, modifier, room);
    if len > MOST_NAMED {
        return None;
    }
    let tag = tag_from(&room[..len])?;
    if !is_of_language(place) {
        return None;
    }
    Some(tag)
}

/// Returns the tag that a text is.
#[inline]
fn tag_from(text: &[u8]) -> Option<LangTag<'_>> {
    LangTag::from_bytes(text).ok()
}

/// Writes the string that a name is read as to a buffer if it fits, and returns its length in
/// bytes.
#[inline]
fn put_text(place: &[u8], extensions: &[u8], modifier: &[u8], buffer: &mut [u8]) -> usize {
    let mut out = Output::new(buffer);
    push_text(&mut out, place, extensions, modifier);
    out.len()
}

/// Appends the string that a name is read as.
#[inline]
fn push_text(out: &mut Output<'_>, place: &[u8], extensions: &[u8], modifier: &[u8]) {
    out.push(place);
    push_posix_extensions(out, extensions);
    push_keywords(out, modifier);
}

/// Appends extensions after a hyphen, if there are some.
#[inline]
fn push_posix_extensions(out: &mut Output<'_>, extensions: &[u8]) {
    if !extensions.is_empty() {
        out.push(b"-");
        out.push(extensions);
    }
}

/// Returns the string behind the front of a name: the codeset and the modifier, with their marks.
#[inline]
fn behind_front<'a>(name: &'a [u8], front: &[u8]) -> &'a [u8] {
    &name[front.len()..]
}

/// Returns whether the string behind a front is a modifier, or a dot and a codeset.
fn has_good_codeset(behind: &[u8]) -> bool {
    match behind {
        [] | [b'@', ..] => true,
        [_, behind @ ..] => {
            let (codeset, _modifier) = split_at_byte(behind, b'@');
            is_codeset(codeset)
        }
    }
}

#[inline]
fn is_codeset(text: &[u8]) -> bool {
    !text.is_empty() && are_codeset_bytes(text)
}

#[inline]
fn are_codeset_bytes(text: &[u8]) -> bool {
    text.iter().all(|byte| is_codeset_byte(*byte))
}

#[inline]
fn is_codeset_byte(byte: u8) -> bool {
    byte.is_ascii_alphanumeric() || byte == b'-' || byte == b'_' || byte == b'.'
}

/// Returns the string before the codeset and the modifier, and the modifier.
#[inline]
pub(crate) fn front_and_modifier(name: &[u8]) -> (&[u8], &[u8]) {
    let (front, _codeset) = split_at_either(name, b'.', b'@');
    let (_, modifier) = split_at_byte(name, b'@');
    (front, modifier)
}

/// Returns the language and the territory of a name, or `und` if it has neither, but something
/// after `#`.
fn place_of(name: &[u8]) -> &[u8] {
    let (front, _) = front_and_modifier(name);
    let (_, behind) = split_at_byte(front, b'#');
    let place = locale_place(name);
    if place.is_empty() && !behind.is_empty() {
        b"und"
    } else {
        place
    }
}

/// Returns the extensions after `#`, or after a script and `_`.
fn extensions_behind(front: &[u8]) -> &[u8] {
    let (_, behind) = split_at_byte(front, b'#');
    let (script, extensions) = split_at_byte(behind, b'_');
    if is_script(script) {
        extensions
    } else {
        behind
    }
}

/// Returns a language and a territory without a last field that stands for the extensions after
/// them.
#[inline]
fn without_java_field<'a>(place: &'a [u8], extensions: &[u8]) -> &'a [u8] {
    if is_java_place(place, extensions) {
        &place[..5]
    } else {
        place
    }
}

/// Returns whether a last field of Java, which has been read, stands for the extension that
/// follows.
#[inline]
fn is_java_place(place: &[u8], extensions: &[u8]) -> bool {
    (case_insensitive_eq(b"ja-JP-u-ca-japanese", place)
        && case_insensitive_eq(b"u-ca-japanese", extensions))
        || (case_insensitive_eq(b"th-TH-u-nu-thai", place)
            && case_insensitive_eq(b"u-nu-thai", extensions))
}

/// Returns whether extensions or keywords may follow a language and a territory. A name has not
/// both, since keywords behind private use would be a part of it, and those behind `u` would be a
/// second `u`.
fn may_follow(place: &[u8], extensions: &[u8], keywords: bool) -> bool {
    if extensions.is_empty() && !keywords {
        return true;
    }
    !has_extension(place) && (extensions.is_empty() || (begins_extension(extensions) && !keywords))
}

/// Returns whether a string has a subtag of one byte.
#[inline]
fn has_extension(text: &[u8]) -> bool {
    text.split(|byte| *byte == b'-')
        .any(|subtag| is_single(subtag))
}

/// Returns whether a string begins with a subtag of one byte.
#[inline]
fn begins_extension(text: &[u8]) -> bool {
    let (first, _) = split_at_byte(text, b'-');
    is_single(first)
}

#[inline]
fn is_single(subtag: &[u8]) -> bool {
    subtag.len() == 1
}
