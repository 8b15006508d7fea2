// Generated from crates/langtag_canonical/src/extlang_forms.rt. Do not edit.

//! The extlang form of a tag (RFC 5646 section 4.5).

#[cfg(feature = "alloc")]
use crate::erased::canonical::canonical_form::canonical;
use crate::erased::fields::prefix_of_language;
use crate::erased::language::Language;
use crate::erased::tag::LangTag;
#[cfg(feature = "alloc")]
use crate::erased::tag::{LangTagBuf, NormalLangTagBuf};
#[cfg(feature = "alloc")]
use crate::shim::{try_string, AllocError, TryText};
#[cfg(feature = "alloc")]
use alloc::string::String;

/// Returns the extlang form of a tag ([RFC 5646 section 4.5]). It is the canonical form, with a
/// prefix before a language that is also registered as an extended language: `zh-hak-CN` for
/// `hak-CN` and `zh-hak-CN`, `he` for `iw`. A language with three extended subtags, which no valid
/// tag has, stays as it is.
///
/// # Errors
///
/// Returns an error if allocation fails.
///
/// ```
/// # fn main() -> Result<(), Box<dyn std::error::Error>> {
/// use langtag::erased::tag::LangTag;
/// use langtag::erased::registry::extlang_form;
///
/// assert_eq!(extlang_form(LangTag::new("hak-CN")?)?.as_str(), "zh-hak-CN");
/// # Ok(())
/// # }
/// ```
///
/// [RFC 5646 section 4.5]: https://www.rfc-editor.org/rfc/rfc5646#section-4.5
#[cfg(feature = "alloc")]
pub fn extlang_form(tag: LangTag<'_>) -> Result<LangTagBuf, AllocError> {
    match canonical(tag)?.into_normal() {
        Ok(form) => Ok(with_prefix(form)?.into_lang_tag()),
        Err(form) => Ok(form),
    }
}

/// Returns a tag with the prefix of its language before it.
#[cfg(feature = "alloc")]
fn with_prefix(mut form: NormalLangTagBuf) -> Result<NormalLangTagBuf, AllocError> {
    let Some(text) = prefixed_language(form.as_normal_lang_tag().language())? else {
        return Ok(form);
    };
    form.set_language(Language::from_checked(text.as_str()))?;
    Ok(form)
}

/// Returns a language with its prefix before it, if it is also an extended language: `zh-hak` for
/// `hak`.
#[cfg(feature = "alloc")]
fn prefixed_language(language: Language<'_>) -> Result<Option<String>, AllocError> {
    if is_full(language) {
        return Ok(None);
    }
    let Some(prefix) = prefix_of_language(language.primary()) else {
        return Ok(None);
    };
    let mut text = try_string(prefix.as_str())?;
    text.try_push_str("-")?;
    text.try_push_str(language.as_str())?;
    Ok(Some(text))
}

/// Returns whether a language has three extended subtags, which leave no room for another.
#[inline]
fn is_full(language: Language<'_>) -> bool {
    language.extension_subtags().count() == 3
}
