// Generated from crates/langtag_registry/src/validity.rt. Do not edit.

//! Valid tags (RFC 5646 section 2.2.9).

use crate::erased::extension::Singleton;
use crate::erased::fields::{
    is_registered_extlang, is_registered_language, is_registered_region, is_registered_script,
    is_registered_variant,
};
use crate::erased::language::Language;
use crate::erased::place::{Region, Script, Variants};
use crate::erased::registry::invalid_subtag::InvalidSubtag;
use crate::erased::tag::{is_among_first, LangTag, NormalLangTag};

/// Checks whether a tag is valid by the registry ([RFC 5646 section 2.2.9]). All its subtags must
/// be registered. It must have at most one extended language, and no variant or singleton may occur
/// twice. Grandfathered and private-use tags are valid: `fr-FR`, `zh-min` and `x-qt` are `Ok`.
/// Prefixes of variants do not matter. Errors are equal if their kinds and subtags are equal.
///
/// # Errors
///
/// Returns the first invalid subtag of the tag: the language `qt` in `qt-FQ`.
/// `langtag::erased::likely::suggested_language` and `langtag::erased::likely::suggested_region`
/// return the registered code that was probably meant: `de` for `ger`, `GB` for `UK`.
///
/// ```
/// # fn main() -> Result<(), Box<dyn std::error::Error>> {
/// use langtag::erased::tag::LangTag;
/// use langtag::erased::registry::validate;
///
/// assert!(validate(LangTag::new("de-CH-1996")?).is_ok());
/// assert!(validate(LangTag::new("qt-FQ")?).is_err());
/// # Ok(())
/// # }
/// ```
///
/// [RFC 5646 section 2.2.9]: https://www.rfc-editor.org/rfc/rfc5646#section-2.2.9
#[inline]
pub fn validate(tag: LangTag<'_>) -> Result<(), InvalidSubtag<'_>> {
    match fault_at(tag) {
        Some((fault, _)) => Err(fault),
        None => Ok(()),
    }
}

/// Returns the error that [`validate`] would return, and an index, or `None` for a valid tag. The
/// index counts from 0 among the variants, or among the extensions for a repeated singleton: for
/// `de-1996-1996` it is 1. For other subtags it is 0. It does not allocate.
///
/// ```
/// # fn main() -> Result<(), Box<dyn std::error::Error>> {
/// use langtag::erased::tag::LangTag;
/// use langtag::erased::registry::fault_at;
///
/// assert_eq!(fault_at(LangTag::new("de-1996-1996")?).map(|(_, index)| index), Some(1));
/// assert!(fault_at(LangTag::new("de-1996")?).is_none());
/// # Ok(())
/// # }
/// ```
#[inline]
#[must_use]
pub fn fault_at(tag: LangTag<'_>) -> Option<(InvalidSubtag<'_>, usize)> {
    let normal = tag.as_normal()?;
    let fault = find_fault_of_normal(normal)?;
    if tag.is_grandfathered() {
        return None;
    }
    Some(fault)
}

/// Returns the first fault of a normal tag. It does not check whether the tag is grandfathered.
fn find_fault_of_normal(tag: NormalLangTag<'_>) -> Option<(InvalidSubtag<'_>, usize)> {
    if let Some(fault) = find_language_fault(tag.language()) {
        return Some((fault, 0));
    }
    if let Some(fault) = find_script_fault(tag.script()) {
        return Some((fault, 0));
    }
    if let Some(fault) = find_region_fault(tag.region()) {
        return Some((fault, 0));
    }
    if let Some(fault) = find_variant_fault(tag.variants()) {
        return Some(fault);
    }
    let (singleton, index) = find_repeated_singleton(tag)?;
    Some((InvalidSubtag::RepeatedSingleton(singleton), index))
}

/// Returns the first fault of a language.
fn find_language_fault(language: Language<'_>) -> Option<InvalidSubtag<'_>> {
    let primary = language.primary();
    if !is_registered_language(primary) {
        return Some(InvalidSubtag::Language(primary));
    }
    let mut extlangs = language.extension_subtags();
    let first = extlangs.next()?;
    if !is_registered_extlang(first) {
        return Some(InvalidSubtag::Extlang(first));
    }
    let second = extlangs.next()?;
    Some(InvalidSubtag::SecondExtlang(second))
}

/// Returns the fault of a script, if it has one.
#[inline]
fn find_script_fault(script: Option<Script<'_>>) -> Option<InvalidSubtag<'_>> {
    let script = script?;
    if is_registered_script(script) {
        return None;
    }
    Some(InvalidSubtag::Script(script))
}

/// Returns the fault of a region, if it has one.
#[inline]
fn find_region_fault(region: Option<Region<'_>>) -> Option<InvalidSubtag<'_>> {
    let region = region?;
    if is_registered_region(region) {
        return None;
    }
    Some(InvalidSubtag::Region(region))
}

/// Returns the first fault among variants, and the index of that variant.
// Each variant is compared with the variants before it. The earlier variants are registered and all different, so they
// are few.
fn find_variant_fault(variants: Variants<'_>) -> Option<(InvalidSubtag<'_>, usize)> {
    for (index, variant) in variants.iter().enumerate() {
        if !is_registered_variant(variant) {
            return Some((InvalidSubtag::Variant(variant), index));
        }
        if is_among_first(variants, index, variant) {
            return Some((InvalidSubtag::RepeatedVariant(variant), index));
        }
    }
    None
}

/// Returns the first repeated singleton, and the index of its extension.
fn find_repeated_singleton(tag: NormalLangTag<'_>) -> Option<(Singleton, usize)> {
    let index = tag.repeated_singleton_index()?;
    let extension = tag.extensions().iter().nth(index)?;
    Some((extension.singleton(), index))
}
