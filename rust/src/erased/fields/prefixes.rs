// Generated from crates/langtag_fields/src/prefixes.rt. Do not edit.

//! Which strings an extended language and a variant should follow (RFC 5646 section 3.1.8).

use crate::erased::fields::table::value_of;
use crate::erased::fields::tables::{
    EXTLANG_PREFIX_INDICES, EXTLANG_PREFIX_KEYS, EXTLANG_PREFIX_VALUES, VARIANT_PREFIXES,
};
use crate::erased::language::{ExtendedLangTag, PrimaryLanguage};
use crate::erased::scan::case_insensitive_eq;

/// Returns the language that an extended language should follow (the field Prefix, [RFC 5646
/// section 3.1.8]): `zh` for `yue`. Returns `None` for extended languages that are not registered.
/// A tag with another language, such as `de-yue`, may still be valid.
///
/// ```
/// # fn main() -> Result<(), Box<dyn std::error::Error>> {
/// use langtag::ExtendedLangTag;
/// use langtag::registry::extlang_prefix;
///
/// assert_eq!(
///     extlang_prefix(ExtendedLangTag::new("yue")?).map(|language| language.as_str()),
///     Some("zh")
/// );
/// # Ok(())
/// # }
/// ```
///
/// [RFC 5646 section 3.1.8]: https://www.rfc-editor.org/rfc/rfc5646#section-3.1.8
#[inline]
#[must_use]
pub fn extlang_prefix(extlang: ExtendedLangTag<'_>) -> Option<PrimaryLanguage<'static>> {
    prefix_of_language(PrimaryLanguage::from_checked(extlang.as_str()))
}

/// Returns the prefix of a language that is also an extended language: `zh` for the language `yue`,
/// `None` for `fr`.
#[inline]
#[must_use]
pub fn prefix_of_language(language: PrimaryLanguage<'_>) -> Option<PrimaryLanguage<'static>> {
    let text = value_of(
        &EXTLANG_PREFIX_KEYS,
        &EXTLANG_PREFIX_INDICES,
        &EXTLANG_PREFIX_VALUES,
        language.as_bytes(),
    )?;
    Some(PrimaryLanguage::from_checked(text))
}

/// Returns whether an extended language is registered for a language: `yue` is for `zh`. Case is
/// ignored.
#[inline]
#[must_use]
pub fn is_prefix_of(language: &[u8], extlang: &[u8]) -> bool {
    value_of(
        &EXTLANG_PREFIX_KEYS,
        &EXTLANG_PREFIX_INDICES,
        &EXTLANG_PREFIX_VALUES,
        extlang,
    )
    .is_some_and(|prefix| case_insensitive_eq(prefix.as_bytes(), language))
}

/// Returns the number of each variant that should follow a prefix, and the prefix; a variant may
/// have several.
#[inline]
#[must_use]
pub fn variant_prefixes() -> &'static [(u64, &'static str)] {
    &VARIANT_PREFIXES
}
