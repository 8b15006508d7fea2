// Generated from crates/langtag_keyword/src/extension_form.rt. Do not edit.

//! The canonical form of the extensions `u` and `t` (UTS #35, part 1, Annex C).

use crate::erased::extension::{Extension, Extensions};
use crate::erased::keyword::alphabet::push_in_alphabet;
use crate::erased::keyword::keys::Keys;
use crate::erased::keyword::keyword_form::push_keywords;
use crate::erased::keyword::subtags::preceding;
use crate::erased::keyword::transform_form::{is_transform, push_transform};
use crate::erased::scan::into_smallcase;
use crate::erased::text::Output;

/// Appends extensions, with the first `u` and the first `t` in canonical form.
pub fn push_extensions(out: &mut Output<'_>, extensions: Extensions<'_>) {
    let mut after_u = false;
    let mut after_t = false;
    for extension in extensions.iter() {
        push_extension(out, extension, after_u, after_t);
        after_u = is_after(b'u', extension, after_u);
        after_t = is_after(b't', extension, after_t);
    }
}

/// Appends an extension: in canonical form if it is the first `u`, or the first `t` and
/// well-formed, and otherwise unchanged.
fn push_extension(out: &mut Output<'_>, extension: Extension<'_>, after_u: bool, after_t: bool) {
    if is_first(b'u', extension, after_u) {
        return push_unicode(out, subtags_of(extension));
    }
    if is_first_transform(extension, after_t) {
        return push_transform(out, subtags_of(extension));
    }
    out.push_subtag(extension.as_bytes());
}

/// Returns whether an extension is the first `t`, and is well-formed.
#[inline]
fn is_first_transform(extension: Extension<'_>, after_t: bool) -> bool {
    is_first(b't', extension, after_t) && is_transform(subtags_of(extension))
}

/// Returns whether an extension is the first extension with the given singleton.
#[inline]
fn is_first(singleton: u8, extension: Extension<'_>, is_after: bool) -> bool {
    is_of(singleton, extension) && !is_after
}

/// Returns whether an extension with the singleton has occurred, up to and including this
/// extension.
#[inline]
fn is_after(singleton: u8, extension: Extension<'_>, is_after: bool) -> bool {
    is_after || is_of(singleton, extension)
}

/// Returns the subtags after the singleton, joined by hyphens.
#[inline]
#[must_use]
pub fn subtags_of(extension: Extension<'_>) -> &str {
    &extension.as_str()[2..]
}

/// Appends the canonical form of the extension `u` with these subtags.
#[inline]
pub fn push_unicode(out: &mut Output<'_>, text: &str) {
    out.push_subtag(b"u");
    push_in_alphabet(out, preceding(text, Keys::Unicode));
    push_keywords(out, text, Keys::Unicode);
}

/// Returns whether an extension begins with a singleton, ignoring case.
#[inline]
#[must_use]
pub fn is_of(singleton: u8, extension: Extension<'_>) -> bool {
    into_smallcase(extension.singleton().unwrap()) == singleton
}
