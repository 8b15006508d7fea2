// Generated from crates/langtag_match/src/filter.rt. Do not edit.

//! Filtering of a list of tags by a language priority list (RFC 4647 section 3.3).

use crate::erased::matching::filter_rule::FilterRule;
use crate::erased::matching::language_range::LanguageRange;
use crate::erased::tag::LangTag;

/// Returns an iterator over the tags that basic filtering finds for a language priority list (RFC
/// 4647 sections 3.3 and 3.3.1). The tags that the first range matches come first. Then, for each
/// later range, come the tags that this range matches and no earlier range matches.
///
/// For the ranges `de-CH` and `de`, and the tags `en`, `de-AT` and `de-CH-1996`, the iterator
/// yields `de-CH-1996` and `de-AT`. A tag that is in the list twice is found twice.
///
/// Each tag is compared with each range. For each range that matches, the tag is compared again
/// with the earlier ranges. So if many ranges match one tag, the time is quadratic in the number of
/// ranges.
///
/// ```
/// # fn main() -> Result<(), Box<dyn std::error::Error>> {
/// use langtag::erased::tag::LangTag;
/// use langtag::erased::matching::{filter_basic, LanguageRange};
///
/// let ranges = [LanguageRange::new("de-CH")?, LanguageRange::new("de")?];
/// let tags = [LangTag::new("en")?, LangTag::new("de-AT")?, LangTag::new("de-CH-1996")?];
/// let mut found = filter_basic(&ranges, &tags);
/// assert_eq!(found.next().map(|tag| tag.as_str()), Some("de-CH-1996"));
/// assert_eq!(found.next().map(|tag| tag.as_str()), Some("de-AT"));
/// # Ok(())
/// # }
/// ```
#[inline]
#[must_use]
pub fn filter_basic<'a, 't>(
    ranges: &'a [LanguageRange<'a>],
    tags: &'a [LangTag<'t>],
) -> Filtered<'a, 't> {
    Filtered::new(FilterRule::Basic, ranges, tags)
}

/// Returns an iterator over the tags that extended filtering finds ([RFC 4647 section 3.3.2]), in
/// the same order and time as [`filter_basic`]: for `*-CH` and the tags `de-AT` and `de-Latn-CH`,
/// it yields `de-Latn-CH`.
///
/// ```
/// # fn main() -> Result<(), Box<dyn std::error::Error>> {
/// use langtag::erased::tag::LangTag;
/// use langtag::erased::matching::{filter_extended, LanguageRange};
///
/// let ranges = [LanguageRange::new("*-CH")?];
/// let tags = [LangTag::new("de-AT")?, LangTag::new("de-Latn-CH")?];
/// assert_eq!(filter_extended(&ranges, &tags).next().map(|tag| tag.as_str()), Some("de-Latn-CH"));
/// # Ok(())
/// # }
/// ```
///
/// [RFC 4647 section 3.3.2]: https://www.rfc-editor.org/rfc/rfc4647#section-3.3.2
#[inline]
#[must_use]
pub fn filter_extended<'a, 't>(
    ranges: &'a [LanguageRange<'a>],
    tags: &'a [LangTag<'t>],
) -> Filtered<'a, 't> {
    Filtered::new(FilterRule::Extended, ranges, tags)
}

/// The iterator that [`filter_basic`] and [`filter_extended`] return. It does not allocate.
///
/// ```
/// # fn main() -> Result<(), Box<dyn std::error::Error>> {
/// use langtag::erased::tag::LangTag;
/// use langtag::erased::matching::{LanguageRange, filter_basic};
///
/// let tags = [LangTag::new("en")?, LangTag::new("de-AT")?];
/// assert_eq!(filter_basic(&[LanguageRange::new("de")?], &tags).count(), 1);
/// # Ok(())
/// # }
/// ```
#[derive(Clone, Debug)]
pub struct Filtered<'a, 't> {
    rule: FilterRule,
    ranges: &'a [LanguageRange<'a>],
    tags: &'a [LangTag<'t>],
    range_index: usize,
    tag_index: usize,
}

impl<'a, 't> Filtered<'a, 't> {
    /// Returns an iterator that starts at the first tag that the ranges find.
    #[inline]
    fn new(
        rule: FilterRule,
        ranges: &'a [LanguageRange<'a>],
        tags: &'a [LangTag<'t>],
    ) -> Filtered<'a, 't> {
        Filtered {
            rule,
            ranges,
            tags,
            range_index: 0,
            tag_index: 0,
        }
    }
}

impl<'a, 't> Iterator for Filtered<'a, 't> {
    type Item = LangTag<'t>;

    #[inline]
    fn next(&mut self) -> Option<LangTag<'t>> {
        let Some((range_index, tag_index)) = next_place(
            self.rule,
            self.ranges,
            self.tags,
            self.range_index,
            self.tag_index,
        ) else {
            self.range_index = self.ranges.len();
            return None;
        };
        self.range_index = range_index;
        self.tag_index = tag_index + 1;
        Some(self.tags[tag_index])
    }
}

/// Returns the index of the next range that finds a tag, and the index of that tag. The search
/// starts at the given range and tag.
#[inline]
fn next_place(
    rule: FilterRule,
    ranges: &[LanguageRange<'_>],
    tags: &[LangTag<'_>],
    range_index: usize,
    tag_index: usize,
) -> Option<(usize, usize)> {
    let mut from = tag_index;
    for index in range_index..ranges.len() {
        if let Some(found) = next_found(rule, &ranges[..index], ranges[index], tags, from) {
            return Some((index, found));
        }
        from = 0;
    }
    None
}

/// Returns the index of the first tag that a range matches and no earlier range matches. The search
/// starts at the given index.
#[inline]
fn next_found(
    rule: FilterRule,
    before: &[LanguageRange<'_>],
    range: LanguageRange<'_>,
    tags: &[LangTag<'_>],
    from: usize,
) -> Option<usize> {
    for index in from..tags.len() {
        if is_newly_found(rule, before, range, tags[index]) {
            return Some(index);
        }
    }
    None
}

/// Returns whether a range matches a tag that no earlier range matches.
#[inline]
fn is_newly_found(
    rule: FilterRule,
    before: &[LanguageRange<'_>],
    range: LanguageRange<'_>,
    tag: LangTag<'_>,
) -> bool {
    rule.matches(range, tag) && !is_found(rule, before, tag)
}

/// Returns whether one of several ranges matches a tag.
#[inline]
fn is_found(rule: FilterRule, ranges: &[LanguageRange<'_>], tag: LangTag<'_>) -> bool {
    ranges.iter().any(|range| rule.matches(*range, tag))
}
