// Generated from crates/langtag_cldr/src/suggestion.rt. Do not edit.

//! The code that was probably meant by a language or a region that is not registered. A code is
//! suggested only if CLDR replaces it with one subtag, so nothing is suggested for `FQ`, which
//! became two regions. Nothing is suggested for an extended language, because the writer of
//! `zh-fra` hardly means `FR`.

use crate::erased::cldr::alias_tables as tables;
use crate::erased::cldr::aliases::language_alias;
use crate::erased::cldr::keys::index_of;
use crate::erased::cldr::names::name_at;
use crate::erased::cldr::tag_fields::TagFields;
use crate::erased::scan::{is_primary, is_region};

/// Returns the code by which CLDR replaces a language code, ignoring case: `de` for `deu` and
/// `ger`. Many replaced codes are from ISO 639-2 and ISO 639-3, whose codes are not registered if
/// the language has a code of two letters.
///
/// Returns `None` if CLDR has no alias, as for `de`, or if a script or a region comes with the
/// language: `hbs` becomes `sr-Latn`.
///
/// ```
/// use langtag::erased::likely::suggested_language;
///
/// assert_eq!(suggested_language("ger"), Some("de"));
/// assert_eq!(suggested_language("de"), None);
/// ```
#[must_use]
pub fn suggested_language(code: &str) -> Option<&'static str> {
    if !is_primary(code.as_bytes()) {
        return None;
    }
    let language = TagFields {
        language: code.as_bytes(),
        script: b"",
        region: b"",
    };
    let to = language_alias(language)?;
    if to.script.is_empty() && to.region.is_empty() {
        Some(text_of(to.language))
    } else {
        None
    }
}

/// Returns the region by which CLDR replaces another region, ignoring case: `GB` for `UK`, and `US`
/// for `840`, the number of a country (UN M.49). Returns `None` if CLDR has no alias, as for `GB`,
/// or if it has several regions, as for `FQ`.
///
/// ```
/// use langtag::erased::likely::suggested_region;
///
/// assert_eq!(suggested_region("UK"), Some("GB"));
/// assert_eq!(suggested_region("GB"), None);
/// ```
#[must_use]
pub fn suggested_region(code: &str) -> Option<&'static str> {
    if !is_region(code.as_bytes()) {
        return None;
    }
    let fields = TagFields {
        language: b"",
        script: b"",
        region: code.as_bytes(),
    };
    Some(text_of(region_replacement(fields)?))
}

/// Returns the region that replaces the region of these fields, if there is exactly one such
/// region: `GB` for `UK`, and `US` for `840`. Case is ignored.
#[inline]
#[must_use]
pub fn region_replacement(fields: TagFields<'_>) -> Option<&'static [u8]> {
    let index = index_of(&tables::REPLACEMENT_KEYS, fields.region)?;
    Some(name_at(&tables::REPLACEMENT_NAMES, index))
}

/// Returns a name of the tables as a string.
#[inline]
fn text_of(name: &'static [u8]) -> &'static str {
    let Ok(text) = core::str::from_utf8(name) else {
        unreachable!()
    };
    text
}
