// Generated from crates/langtag_locale/src/locale_extensions.rt. Do not edit.

//! The extensions in the form of a Unicode locale identifier (UTS #35, part 1, Annex C).

use crate::erased::cldr::{language_replaced, TagFields};
use crate::erased::extension::{singletons_of, SINGLETONS};
use crate::erased::keyword::{
    is_of, preceding, push_keywords, push_unicode, split_first, subtags_of, take_region,
    take_script, Keys,
};
use crate::erased::locale::locale_fields::identifier_form;
use crate::erased::locale::locale_variants::push_variants;
use crate::erased::tag::{into_smallcase, Extension, Extensions, Singleton};
use crate::erased::text::Output;

/// Appends the extensions in their forms, in the order of their singletons.
pub(crate) fn push_locale_extensions(out: &mut Output<'_>, extensions: Extensions<'_>) {
    if extensions.as_str().is_empty() {
        return;
    }
    let present = singletons_of(extensions);
    for singleton in SINGLETONS {
        if !present[usize::from(into_smallcase(singleton))] {
            continue;
        }
        push_extension_at(out, extensions, singleton);
    }
}

/// Appends the extension with a singleton in its form, if there is such an extension.
fn push_extension_at(out: &mut Output<'_>, extensions: Extensions<'_>, singleton: u8) {
    let Ok(singleton) = Singleton::new(singleton) else {
        unreachable!()
    };
    if let Some(extension) = extensions.get_singleton(singleton) {
        push_extension(out, extension);
    }
}

/// Appends an extension in its form.
fn push_extension(out: &mut Output<'_>, extension: Extension<'_>) {
    if is_of(b'u', extension) {
        return push_unicode(out, subtags_of(extension));
    }
    if is_of(b't', extension) {
        return push_locale_transform(out, subtags_of(extension));
    }
    out.push_subtag(extension.as_bytes());
}

/// Appends the form of the extension `t` with these subtags.
#[inline]
fn push_locale_transform(out: &mut Output<'_>, text: &str) {
    out.push_subtag(b"t");
    push_locale_language(out, text);
    push_keywords(out, text, Keys::Transform);
}

/// Appends the form of the language before the fields.
#[inline]
fn push_locale_language(out: &mut Output<'_>, text: &str) {
    if let Some(language) = preceding(text, Keys::Transform) {
        push_locale_language_id(out, language);
    }
}

/// Appends the form of a language identifier, given as a string.
fn push_locale_language_id(out: &mut Output<'_>, text: &str) {
    let (language, rest) = split_first(text);
    let (script, rest) = take_script(rest);
    let (region, variants) = take_region(rest);
    let fields = TagFields {
        language: language.as_bytes(),
        script: text_of(script),
        region: text_of(region),
    };
    push_identifier(out, fields, variants);
}

/// Returns the string of a subtag, or the empty string if there is no subtag.
#[inline]
fn text_of(subtag: Option<&str>) -> &[u8] {
    match subtag {
        Some(subtag) => subtag.as_bytes(),
        None => b"",
    }
}

/// Appends the form of a language identifier with these fields and variants.
pub(crate) fn push_identifier(out: &mut Output<'_>, fields: TagFields<'_>, variants: Option<&str>) {
    let replaced = language_replaced(fields);
    let form = identifier_form(replaced, variants);
    out.push_subtag(form.language);
    push_field(out, form.script);
    push_field(out, form.region);
    push_variants(out, replaced.language, variants);
}

/// Appends a field, unless it is empty.
#[inline]
pub(crate) fn push_field(out: &mut Output<'_>, field: &[u8]) {
    if !field.is_empty() {
        out.push_subtag(field);
    }
}
