// Generated from crates/langtag_locale/src/locale.rt. Do not edit.

//! Unicode locale identifiers (UTS #35, part 1, section 'Unicode Locale Identifier').

use crate::erased::keyword::{
    is_of, is_transform, is_unicode_key, is_unicode_language, subtags_of, Keys,
};
use crate::erased::likely::marked_region;
use crate::erased::tag::{Extension, Extensions, LangTag, NormalLangTag, Subtags};

/// Returns whether a tag is a Unicode locale identifier (UTS #35, part 1, section 'Unicode Locale
/// Identifier'), as JavaScript's `Intl` requires.
///
/// Such a tag has a language of two, three, or five to eight letters, and no extended language. No
/// variant and no singleton is repeated. Each key of `u` ends with a letter. In `t`, the language
/// meets the same rules, and each field has a value. Other extensions and private use may be
/// anything that RFC 5646 allows.
///
/// `x-a`, `i-klingon`, `zh-yue` and `und-t-m0` are tags, but they are not Unicode locale
/// identifiers.
///
/// Repeated variants are found by `NormalLangTag::repeated_variant`, which needs up to 16 KiB of
/// stack, and takes quadratic time beyond 1,152 variants. The time is also quadratic in the number
/// of variants in the language of `t`.
///
/// ```
/// # fn main() -> Result<(), Box<dyn std::error::Error>> {
/// use langtag::LangTag;
/// use langtag::unicode::is_locale;
///
/// assert!(is_locale(LangTag::new("de-1996-u-co-phonebk-x-a")?));
/// assert!(!is_locale(LangTag::new("zh-yue")?));
/// assert!(!is_locale(LangTag::new("de-u-c1-abc")?));
/// # Ok(())
/// # }
/// ```
#[inline]
#[must_use]
pub fn is_locale(tag: LangTag<'_>) -> bool {
    tag.as_normal().is_some_and(is_locale_record)
}

/// Returns whether a normal tag is a Unicode locale identifier.
#[inline]
pub(crate) fn is_locale_record(tag: NormalLangTag<'_>) -> bool {
    has_unicode_language(tag) && has_locale_parts(tag)
}

/// Returns whether a normal tag is a Unicode locale identifier, as it is read: `es-rUS` is read as
/// `es-US`.
#[inline]
pub(crate) fn is_read_record(tag: NormalLangTag<'_>) -> bool {
    has_read_language(tag) && has_locale_parts(tag)
}

/// Returns whether the language of a tag is allowed, and has no extended subtags.
#[inline]
fn has_unicode_language(tag: NormalLangTag<'_>) -> bool {
    let language = tag.language();
    is_unicode_language(language.primary().as_str()) && language.extension().is_none()
}

/// Returns whether the language of a tag is allowed, and has no extended subtags but a region with
/// Android's mark.
#[inline]
fn has_read_language(tag: NormalLangTag<'_>) -> bool {
    has_unicode_language(tag)
        || (!marked_region(tag).is_empty()
            && is_unicode_language(tag.language().primary().as_str()))
}

/// Returns whether no variant and no singleton is repeated, and each extension is allowed.
#[inline]
fn has_locale_parts(tag: NormalLangTag<'_>) -> bool {
    tag.repeated_variant().is_none()
        && tag.repeated_singleton().is_none()
        && are_locale_extensions(tag.extensions())
}

/// Returns whether each extension is allowed.
#[inline]
fn are_locale_extensions(extensions: Extensions<'_>) -> bool {
    for extension in extensions.iter() {
        if !is_locale_extension(extension) {
            return false;
        }
    }
    true
}

/// Returns whether an extension is allowed.
#[inline]
fn is_locale_extension(extension: Extension<'_>) -> bool {
    if is_of(b'u', extension) {
        return are_unicode_subtags(subtags_of(extension));
    }
    if is_of(b't', extension) {
        return is_transform(subtags_of(extension));
    }
    true
}

/// Returns whether each subtag may be in `u`.
#[inline]
fn are_unicode_subtags(text: &str) -> bool {
    Subtags::new(text).all(|subtag| is_unicode_subtag(subtag.as_bytes()))
}

/// Returns whether a subtag may be in `u`: a key has to end with a letter.
#[inline]
fn is_unicode_subtag(subtag: &[u8]) -> bool {
    !Keys::Unicode.has(subtag) || is_unicode_key(subtag)
}
