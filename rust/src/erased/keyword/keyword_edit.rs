// Generated from crates/langtag_keyword/src/keyword_edit.rt. Do not edit.

//! Writing the extensions of a tag with a keyword set or removed. A keyword that is set keeps its
//! position, and its key keeps its case, so that all other bytes of the tag stay. ICU and
//! `Intl.Locale` sort all keys.

use crate::erased::extension::{Extension, Extensions, ExtensionsIter, Singleton};
use crate::erased::keyword::edited_subtags::{has_others, push_with_keyword, push_without_keyword};
use crate::erased::keyword::extension_form::subtags_of;
use crate::erased::keyword::subtags::nonempty;
use crate::erased::scan::into_smallcase;
use crate::erased::text::Output;

/// A key and its new value, or `None` to remove the key.
#[derive(Clone, Copy)]
pub struct KeywordEdit<'a> {
    pub key: &'a str,
    pub value: Option<&'a str>,
}

/// Where the edited `u` goes among the extensions of a tag.
#[derive(Clone, Copy)]
pub enum Place {
    /// In place of the first `u`.
    OfFirstUnicode,
    /// Before the first extension with a greater singleton or, if there is none, to the end: the
    /// tag has no `u`.
    BeforeGreater,
}

/// Appends extensions, with a keyword set or removed in the first `u`.
pub fn push_edited(out: &mut Output<'_>, extensions: Extensions<'_>, edit: KeywordEdit<'_>) {
    let place = place_of_unicode(extensions);
    let mut rest = extensions.iter();
    while let Some(extension) = rest.next() {
        if is_at(place, extension) {
            push_at(out, place, extension, edit);
            return push_rest(out, rest);
        }
        out.push_subtag(extension.as_bytes());
    }
    push_unicode(out, b'u', "", edit);
}

/// Returns where the edited `u` goes.
#[must_use]
pub fn place_of_unicode(extensions: Extensions<'_>) -> Place {
    match Singleton::new(b'u') {
        Ok(singleton) if extensions.get_singleton(singleton).is_some() => Place::OfFirstUnicode,
        _ => Place::BeforeGreater,
    }
}

/// Returns whether the place is at this extension.
#[must_use]
pub fn is_at(place: Place, extension: Extension<'_>) -> bool {
    let singleton = into_smallcase(extension.singleton().unwrap());
    match place {
        Place::OfFirstUnicode => singleton == b'u',
        Place::BeforeGreater => singleton > b'u',
    }
}

/// Appends the edited `u` at its place, which is at this extension.
fn push_at(out: &mut Output<'_>, place: Place, extension: Extension<'_>, edit: KeywordEdit<'_>) {
    match place {
        Place::OfFirstUnicode => {
            let singleton = extension.singleton().unwrap();
            push_unicode(out, singleton, subtags_of(extension), edit);
        }
        Place::BeforeGreater => {
            push_unicode(out, b'u', "", edit);
            out.push_subtag(extension.as_bytes());
        }
    }
}

/// Appends the remaining extensions of an iterator.
#[inline]
pub fn push_rest(out: &mut Output<'_>, rest: ExtensionsIter<'_>) {
    for extension in rest {
        out.push_subtag(extension.as_bytes());
    }
}

/// Appends an extension with its edited subtags, or nothing if no subtag is left.
fn push_unicode(out: &mut Output<'_>, singleton: u8, text: &str, edit: KeywordEdit<'_>) {
    let Some(value) = edit.value else {
        return push_others(out, singleton, text, edit.key);
    };
    out.push_subtag(&[singleton]);
    push_with_keyword(out, text, edit.key, value);
}

/// Appends an extension without the keywords of a key, or nothing if no subtag is left.
#[inline]
fn push_others(out: &mut Output<'_>, singleton: u8, text: &str, key: &str) {
    if has_others(text, key) {
        out.push_subtag(&[singleton]);
        push_without_keyword(out, nonempty(text), key);
    }
}
