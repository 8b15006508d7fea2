// Generated from crates/langtag_likely/src/put.rt. Do not edit.

//! A tag with other fields, in pieces.

use crate::erased::cldr::{or_other, TagFields};
use crate::erased::language::Language;
use crate::erased::tag::NormalLangTag;

/// Returns a tag with the given fields, in pieces, or the unchanged tag if `None` is given.
#[inline(always)]
pub(crate) fn changed<'a>(tag: NormalLangTag<'a>, fields: Option<TagFields<'a>>) -> [&'a [u8]; 6] {
    match fields {
        Some(fields) => pieces(tag, fields),
        None => whole(tag.as_str().as_bytes()),
    }
}

/// Returns a whole string as the first piece, before pieces that are empty.
pub(crate) fn whole(text: &[u8]) -> [&[u8]; 6] {
    [text, b"", b"", b"", b"", b""]
}

/// Returns the pieces of a tag with these fields. It is inlined, so that the pieces are not copied.
#[inline(always)]
fn pieces<'a>(tag: NormalLangTag<'a>, fields: TagFields<'a>) -> [&'a [u8]; 6] {
    [
        put_language(tag.language(), fields.language),
        hyphen_before(fields.script),
        fields.script,
        hyphen_before(fields.region),
        fields.region,
        after_region(tag),
    ]
}

/// Returns the hyphen before a subtag, or nothing if the subtag is empty.
#[inline]
fn hyphen_before(subtag: &[u8]) -> &[u8] {
    if subtag.is_empty() {
        b""
    } else {
        b"-"
    }
}

/// Returns the rest of a tag after its region, with the hyphen before it.
#[inline]
fn after_region(tag: NormalLangTag<'_>) -> &[u8] {
    let text = tag.as_str();
    &text.as_bytes()[tag.ends().region..]
}

/// Returns the language of a tag, or `other` instead of `und`.
#[inline]
fn put_language<'a>(language: Language<'a>, other: &'a [u8]) -> &'a [u8] {
    if language.eq_str("und") {
        return or_other(other, language.as_bytes());
    }
    language.as_bytes()
}
