// Generated from crates/langtag_match/src/lookup.rt. Do not edit.

//! The lookup of one tag for a list of ranges (RFC 4647 section 3.4).

use crate::erased::matching::language_range::LanguageRange;
use crate::erased::range::is_range;
use crate::erased::tag::LangTag;

/// Returns the tag that the first successful range finds, or the default if no range finds a tag
/// (RFC 4647 section 3.4). A range finds the tag that equals the range. If no tag equals it, its
/// [`fallbacks`](LanguageRange::fallbacks) are tried, the longest first.
///
/// For the ranges `nl` and `zh-Hant-CN` it tries `nl`, `zh-Hant-CN`, `zh-Hant` and `zh` in this
/// order. If none of them equals a tag, it returns the default.
///
/// An extended range is looked up without its `*` (section 3.2): `de-*-DE` is looked up as `de-DE`.
/// A range that begins with `*` finds no tag, and the next range is tried.
///
/// ```
/// # fn main() -> Result<(), Box<dyn std::error::Error>> {
/// use langtag::erased::tag::LangTag;
/// use langtag::erased::matching::{look_up, LanguageRange};
///
/// let ranges = [LanguageRange::new("nl")?, LanguageRange::new("zh-Hant-CN")?];
/// let tags = [LangTag::new("zh")?, LangTag::new("zh-Hant")?];
/// assert_eq!(look_up(&ranges, &tags, LangTag::new("en")?).as_str(), "zh-Hant");
/// # Ok(())
/// # }
/// ```
#[inline]
#[must_use]
pub fn look_up<'a>(
    ranges: &[LanguageRange<'_>],
    tags: &[LangTag<'a>],
    default: LangTag<'a>,
) -> LangTag<'a> {
    for range in ranges {
        if let Some(tag) = tag_for(*range, tags) {
            return tag;
        }
    }
    default
}

/// Returns the tag that lookup finds for a range.
#[inline]
pub(crate) fn tag_for<'a>(range: LanguageRange<'_>, tags: &[LangTag<'a>]) -> Option<LangTag<'a>> {
    for fallback in range.fallbacks() {
        if let Some(tag) = tag_alike(fallback, tags) {
            return Some(tag);
        }
    }
    None
}

/// Returns the first tag that equals a range, ignoring case and each `-*`.
#[inline]
fn tag_alike<'a>(range: LanguageRange<'_>, tags: &[LangTag<'a>]) -> Option<LangTag<'a>> {
    let range = range.as_str().as_bytes();
    tags.iter()
        .copied()
        .find(|tag| is_range(tag.as_bytes(), range))
}
