// Generated from crates/langtag_keyword/src/transform_form.rt. Do not edit.

//! The canonical form of the extension `t`, written to an output.

use crate::erased::keyword::keys::Keys;
use crate::erased::keyword::keyword_form::push_keywords;
use crate::erased::keyword::language_id::{is_language_id, push_language_id};
use crate::erased::keyword::subtags::preceding;
use crate::erased::scan::Subtags;
use crate::erased::text::Output;

/// Returns whether the subtags after the singleton are what UTS #35 allows: a language, fields, or
/// both.
#[inline]
#[must_use]
pub fn is_transform(text: &str) -> bool {
    is_language_or_none(text) && are_fields(text)
}

/// Returns whether the string before the fields is a language or empty.
#[inline]
fn is_language_or_none(text: &str) -> bool {
    preceding(text, Keys::Transform).is_none_or(is_language_id)
}

/// Appends the canonical form of the extension `t` with these subtags.
#[inline]
pub(crate) fn push_transform(out: &mut Output<'_>, text: &str) {
    out.push_subtag(b"t");
    push_transform_language(out, text);
    push_keywords(out, text, Keys::Transform);
}

/// Appends the canonical form of the language before the fields.
#[inline]
fn push_transform_language(out: &mut Output<'_>, text: &str) {
    if let Some(language) = preceding(text, Keys::Transform) {
        push_language_id(out, language);
    }
}

/// Returns whether each field has a value, and all subtags of values have three characters or more.
fn are_fields(text: &str) -> bool {
    let mut in_fields = false;
    let mut after_key = false;
    for subtag in Subtags::new(text) {
        if !may_follow(in_fields, after_key, subtag) {
            return false;
        }
        after_key = Keys::Transform.has(subtag.as_bytes());
        in_fields = in_fields || after_key;
    }
    !after_key
}

/// Returns whether a subtag may follow the subtags before it.
#[inline]
fn may_follow(in_fields: bool, after_key: bool, subtag: &str) -> bool {
    if Keys::Transform.has(subtag.as_bytes()) {
        return !after_key;
    }
    !in_fields || subtag.len() >= 3
}
