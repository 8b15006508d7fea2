// Generated from crates/langtag_c/src/range.rt. Do not edit.

//! Language ranges, and the tags that they match (RFC 4647).

use crate::calls::tag::tag_of;
use crate::erased::matching::LanguageRange;

/// Returns which kind of language range a string is, as an enum `langtag_range_kind_answer`.
#[inline]
pub fn langtag_range_kind(bytes: &[u8]) -> u32 {
    match range_of(bytes) {
        None => 0,
        Some(range) if range.is_basic() => 1,
        Some(_) => 2,
    }
}

/// Returns whether a range matches a tag by basic filtering ([RFC 4647 section 3.3.1]): the range
/// is *, or equals the tag, or the tag begins with the range and a hyphen. Case is ignored. de-DE
/// matches de-DE-1996, but neither de-Deva nor de-Latn-DE.
///
/// Returns false if the first string is not a language range, or the second is not a tag.
///
/// [RFC 4647 section 3.3.1]: https://www.rfc-editor.org/rfc/rfc4647#section-3.3.1
pub fn langtag_matches_basic(range: &[u8], tag: &[u8]) -> bool {
    match (range_of(range), tag_of(tag)) {
        (Some(range), Some(tag)) => range.is_basic_match(&tag),
        _ => false,
    }
}

/// Returns whether a range matches a tag by extended filtering ([RFC 4647 section 3.3.2]): de-DE
/// and de-*-DE match de-Latn-DE-1996, but not de-x-DE, since no subtag of one byte may be skipped.
///
/// Returns false if the first string is not a language range, or the second is not a tag.
///
/// [RFC 4647 section 3.3.2]: https://www.rfc-editor.org/rfc/rfc4647#section-3.3.2
pub fn langtag_matches_extended(range: &[u8], tag: &[u8]) -> bool {
    match (range_of(range), tag_of(tag)) {
        (Some(range), Some(tag)) => range.is_extended_match(&tag),
        _ => false,
    }
}

/// Returns the bytes as a range, or `None` if they are not a range.
#[inline]
fn range_of<'a>(bytes: &'a [u8]) -> Option<LanguageRange<'a>> {
    let text = core::str::from_utf8(bytes).ok()?;
    LanguageRange::new(text).ok()
}
