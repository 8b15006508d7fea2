// Generated from crates/langtag_choice/src/tag_distance.rt. Do not edit.

//! The distance from a desired tag to a supported tag (UTS #35, part 1, section 'Language
//! Matching').

use crate::erased::choice::region_distance::region_distance;
use crate::erased::choice::rule_distance::{language_distance, script_distance};
use crate::erased::cldr::{are_alike, matching_form, TagFields};
use crate::erased::scan::case_insensitive_eq;
use crate::erased::tag::LangTag;

/// The distance of two different tags if one of them is only `und`, a private-use tag, `i-default`,
/// `i-enochian` or `i-mingo`.
///
/// ```
/// # fn main() -> Result<(), Box<dyn std::error::Error>> {
/// use langtag::LangTag;
/// use langtag::choice::FORMLESS_DISTANCE;
///
/// assert!(LangTag::new("x-a")?.distance(LangTag::new("de")?) == FORMLESS_DISTANCE);
/// # Ok(())
/// # }
/// ```
pub const FORMLESS_DISTANCE: u8 = 255;

/// Returns the distance from a desired tag to a supported tag (UTS #35, Language Matching). It is 0
/// from `zh-TW` to `zh-Hant`, 4 from `de-AT` to `de`, 10 from `yue` to `zh-HK`, and 84 from `de` to
/// `en`.
///
/// First, deprecated subtags are replaced and likely subtags are added. The distance is then the
/// sum of the distances of the languages (80 if no rule gives a smaller distance), the scripts (50
/// if no rule does) and the regions (at most 5). From 0 to 15 the user reads both: they are the
/// same language, perhaps in another region or script, or nearly the same. Below 50 most users
/// understand the other language. Case is ignored, and so is everything after the region, such as
/// variants, extensions and the `oed` of `en-GB-oed`. If one of the tags is only `und`, a
/// private-use tag, `i-default`, `i-enochian` or `i-mingo`, the distance is
/// [`FORMLESS_DISTANCE`](crate::choice::FORMLESS_DISTANCE), or 0 if the tags are equal, ignoring
/// case.
///
/// A language that CLDR replaces, such as `ger`, `deu` or `iw`, is read as its replacement, and so
/// is a deprecated region. An extended language counts only if it is registered for the language
/// before it ([RFC 5646 section 2.2.2]): `zh-yue` is read as `yue`, and `de-fra` as `de`. The
/// letter `r` with a region is that region there, as Android writes it: `zh-rTW` is read as
/// `zh-TW`. A tag that the registry replaces as a whole is read as its Preferred-Value (section
/// 3.1.7), also with extensions and private use: `i-klingon` as `tlh`, `zh-hakka` and
/// `zh-hakka-x-a` as `hak`.
///
/// ```
/// # fn main() -> Result<(), Box<dyn std::error::Error>> {
/// use langtag::LangTag;
///
/// assert_eq!(LangTag::new("de-AT")?.distance(LangTag::new("de")?), 4);
/// assert_eq!(LangTag::new("de")?.distance(LangTag::new("en")?), 84);
/// # Ok(())
/// # }
/// ```
///
/// [RFC 5646 section 2.2.2]: https://www.rfc-editor.org/rfc/rfc5646#section-2.2.2
#[inline]
#[must_use]
pub fn distance(desired: LangTag<'_>, supported: LangTag<'_>) -> u8 {
    texts_distance(desired.as_bytes(), supported.as_bytes())
}

/// Returns the distance of two strings.
pub(crate) fn texts_distance(desired: &[u8], supported: &[u8]) -> u8 {
    match (matching_form(desired), matching_form(supported)) {
        (Some(desired), Some(supported)) => fields_distance(desired, supported),
        _ => formless_distance(desired, supported),
    }
}

/// Returns the distance from a range to a tag. In the range, `_` means `-`, and each `-*` is
/// ignored.
pub(crate) fn range_distance(range: &[u8], tag: &[u8]) -> u8 {
    match (matching_form(range), matching_form(tag)) {
        (Some(wanted), Some(found)) => fields_distance(wanted, found),
        _ => formless_range_distance(range, tag),
    }
}

/// Returns the distance from a range to a tag if the range or the tag has no matching form.
#[inline]
fn formless_range_distance(range: &[u8], tag: &[u8]) -> u8 {
    if are_alike(range, tag) {
        0
    } else {
        FORMLESS_DISTANCE
    }
}

/// Returns the distance of two strings if one of them has no matching form.
#[inline]
fn formless_distance(desired: &[u8], supported: &[u8]) -> u8 {
    if case_insensitive_eq(desired, supported) {
        0
    } else {
        FORMLESS_DISTANCE
    }
}

/// Returns the distance of two matching forms: 0 if and only if they are equal, ignoring case.
#[inline]
fn fields_distance(desired: TagFields<'_>, supported: TagFields<'_>) -> u8 {
    language_distance(desired, supported) + places_distance(desired, supported)
}

/// Returns the distance of the scripts and the regions of two matching forms.
#[inline]
pub(crate) fn places_distance(desired: TagFields<'_>, supported: TagFields<'_>) -> u8 {
    script_distance(desired, supported) + region_distance(desired, supported)
}
