// Generated from crates/langtag_locale/src/canonical_locale.rt. Do not edit.

//! The canonical form of a Unicode locale identifier (UTS #35, part 1, Annex C). The annex repeats
//! its rules until none applies. Here they are seven steps, and the generator in data/unicode tests
//! what the steps assume. If several regions replace a region, the likely region is taken if it is
//! among them. `maximized` takes the first, as Add Likely Subtags says; over CLDR's languages the
//! two differ only for Azerbaijani.

use crate::erased::cldr::{or_other, TagFields};
use crate::erased::keyword::nonempty;
use crate::erased::likely::marked_region;
use crate::erased::locale::locale_extensions::{push_identifier, push_locale_extensions};
use crate::erased::locale::locale_for::locale_for;
use crate::erased::tag::{
    push_private_use, region_field, script_field, LangTag, Language, NormalLangTag,
};
#[cfg(feature = "alloc")]
use crate::erased::tag::{tag_of, LangTagBuf};
use crate::erased::text::{make_recommended_case, Output};
#[cfg(feature = "alloc")]
use crate::shim::{try_vec, AllocError};
#[cfg(feature = "alloc")]
use alloc::vec::Vec;

/// How many bytes longer than its tag a form is expected to be at most. A longer form is right,
/// too, but takes longer.
const SPARE: usize = 32;

/// Returns the canonical form of a tag as a Unicode locale identifier (UTS #35, part 1, Annex C):
/// `ger-UK` becomes `de-GB`, `sh` becomes `sr-Latn`, and `hy-SU` becomes `hy-AM`.
///
/// [`write_locale_form`] says what changes, and which tags have no form.
///
/// The time is quadratic in the number of variants and of attributes beyond 512. It needs as much
/// stack as `is_locale`.
///
/// # Errors
///
/// Returns an error if allocation fails.
///
/// ```
/// # fn main() -> Result<(), Box<dyn std::error::Error>> {
/// use langtag::erased::tag::LangTag;
/// use langtag::erased::locale::locale_form;
///
/// let form = locale_form(LangTag::new("ger-UK-u-ca-islamicc")?)?;
/// assert_eq!(form.as_ref().map(|form| form.as_str()), Some("de-GB-u-ca-islamic-civil"));
/// assert!(locale_form(LangTag::new("x-a")?)?.is_none());
/// # Ok(())
/// # }
/// ```
#[cfg(feature = "alloc")]
#[inline]
pub fn locale_form(tag: LangTag<'_>) -> Result<Option<LangTagBuf>, AllocError> {
    let Some(locale) = locale_for(tag) else {
        return Ok(None);
    };
    Ok(Some(tag_of(form_bytes(locale)?)))
}

/// Returns the bytes of the form of a Unicode locale identifier. The buffer has a guessed length.
/// If it is too short, the bytes are written again.
#[cfg(feature = "alloc")]
fn form_bytes(tag: NormalLangTag<'_>) -> Result<Vec<u8>, AllocError> {
    let mut bytes = try_vec(0, tag.as_str().len().saturating_add(SPARE))?;
    let len = write_locale_parts(tag, &mut bytes);
    if len > bytes.len() {
        return counted_form_bytes(tag);
    }
    bytes.truncate(len);
    Ok(bytes)
}

/// Returns the bytes of the form, which are counted before they are written.
#[cfg(feature = "alloc")]
fn counted_form_bytes(tag: NormalLangTag<'_>) -> Result<Vec<u8>, AllocError> {
    let mut bytes = try_vec(0, put_parts(tag, &mut []))?;
    put_parts(tag, &mut bytes);
    make_recommended_case(&mut bytes);
    Ok(bytes)
}

/// Writes the canonical form of a tag as a Unicode locale identifier (UTS #35, part 1, Annex C) to
/// a buffer, and returns its length in bytes: `ger-UK` becomes `de-GB`, `sh` becomes `sr-Latn`, and
/// `hy-SU` becomes `hy-AM`.
///
/// The language, the script, the region and the variants are replaced by CLDR's aliases, in the tag
/// and in the language of `t`. Variants are put in alphabetical order, and extensions in the order
/// of their singletons. `u` and the fields of `t` get the form of `extensions_form`. The script is
/// in titlecase, the region in uppercase, and everything else in lowercase. Other extensions and
/// private use stay, except for their case: `en-x-true` is its own form.
///
/// `r` before a region, as Android writes it, is left out: `es-rUS` becomes `es-US`. But an
/// extended language that is registered for the language before it is one, as in `sgn-rsl`.
///
/// Norwegian Sign Language, `sgn-NO`, becomes `nsl`, as in IANA's registry. CLDR has `nsi` there,
/// which is Nigerian.
///
/// If the tag is not a Unicode locale identifier, as [`is_locale`](crate::unicode::is_locale)
/// finds, it is replaced first. A tag with a Preferred-Value in IANA's registry becomes that value:
/// `i-klingon` becomes `tlh`. In any other tag, a registered extended language replaces the
/// language before it: `zh-yue-HK` becomes `yue-HK`. Returns `None` if the result is not a Unicode
/// locale identifier, either, as in `x-a`, `i-default` and `und-t-m0`.
///
/// If the buffer is too short, its bytes are not specified, and the length says how long a buffer
/// must be. It does not allocate. The time is quadratic in the number of variants and of attributes
/// beyond 512. It needs as much stack as `is_locale`.
///
/// ```
/// # fn main() -> Result<(), Box<dyn std::error::Error>> {
/// use langtag::erased::tag::LangTag;
/// use langtag::erased::locale::write_locale_form;
///
/// let mut buffer = [0; 16];
/// assert_eq!(write_locale_form(LangTag::new("ger-UK")?, &mut buffer), Some(5));
/// assert_eq!(buffer.get(..5), Some(&b"de-GB"[..]));
/// assert_eq!(write_locale_form(LangTag::new("zh-yue")?, &mut buffer), Some(3));
/// assert_eq!(write_locale_form(LangTag::new("x-a")?, &mut buffer), None);
/// # Ok(())
/// # }
/// ```
#[inline]
pub fn write_locale_form(tag: LangTag<'_>, buffer: &mut [u8]) -> Option<usize> {
    let locale = locale_for(tag)?;
    Some(write_locale_parts(locale, buffer))
}

/// Writes the form of a Unicode locale identifier.
#[inline]
fn write_locale_parts(tag: NormalLangTag<'_>, buffer: &mut [u8]) -> usize {
    let len = put_parts(tag, buffer);
    if len > buffer.len() {
        return len;
    }
    make_recommended_case(&mut buffer[..len]);
    len
}

/// Writes as much of the form, before its case is changed, as fits into a buffer, and returns its
/// full length.
fn put_parts(tag: NormalLangTag<'_>, buffer: &mut [u8]) -> usize {
    let mut out = Output::new(buffer);
    push_identifier(&mut out, fields_of(tag), nonempty(tag.variants().as_str()));
    push_locale_extensions(&mut out, tag.extensions());
    push_private_use(&mut out, tag.private_use());
    out.len()
}

/// Returns the primary language, the script and the region of a tag. After a language, `r` and a
/// region are read as Android writes them.
pub(crate) fn fields_of(tag: NormalLangTag<'_>) -> TagFields<'_> {
    TagFields {
        language: primary_field(tag.language()),
        script: script_field(tag.script()),
        region: or_other(region_field(tag.region()), marked_region(tag)),
    }
}

#[inline]
fn primary_field(language: Language<'_>) -> &[u8] {
    language.primary().as_bytes()
}
