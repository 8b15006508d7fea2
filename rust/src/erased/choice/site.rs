// Generated from crates/langtag_choice/src/site.rt. Do not edit.

//! The tags of a site that is known before the requests. A site borrows its prepared tags, so that
//! a program without an allocator can prepare tags in an array. It has no index by language: an
//! index would need proofs of its own and room in the caller's array in C, and a tag whose language
//! is far from that of a range costs few instructions anyway.

use crate::erased::choice::best::{best_among, match_among};
use crate::erased::choice::best_match::BestMatch;
use crate::erased::choice::prepared_form::PreparedForm;
use crate::erased::choice::prepared_tag::PreparedTag;
use crate::erased::choice::range_list::RangeList;
use crate::erased::choice::tag_list::TagList;
#[cfg(feature = "alloc")]
use crate::erased::matching::AcceptLanguage;
use crate::erased::matching::LanguageRange;
use crate::erased::tag::LangTag;

/// The tags of a site, prepared for many choices. A choice among them is the same as among the tags
/// themselves, but takes fewer instructions: 0.4 times as many for 40 tags, and 0.2 times for
/// 1,000. A site does not change: make another if its tags do.
///
/// ```
/// # fn main() -> Result<(), Box<dyn std::error::Error>> {
/// use langtag::erased::tag::LangTag;
/// use langtag::erased::choice::{PreparedTag, Site};
///
/// let tags = [PreparedTag::new(LangTag::new("en")?), PreparedTag::new(LangTag::new("zh-Hant")?)];
/// let site = Site::new(&tags);
/// assert_eq!(site.best_for_header(b"zh-TW,zh;q=0.9"), Some(1));
/// assert_eq!(site.best_for_header(b"ja"), None);
/// # Ok(())
/// # }
/// ```
#[derive(Clone, Copy)]
pub struct Site<'s, 't> {
    tags: &'s [PreparedTag<'t>],
}

impl<'s, 't> Site<'s, 't> {
    /// Returns the site with these tags.
    #[inline]
    #[must_use]
    pub fn new(tags: &'s [PreparedTag<'t>]) -> Site<'s, 't> {
        Site { tags }
    }

    /// Returns the prepared tags.
    #[inline]
    #[must_use]
    pub fn tags(self) -> &'s [PreparedTag<'t>] {
        self.tags
    }

    /// Returns the index of the best tag for an Accept-Language header, as
    /// [`best_for_header`](crate::choice::best_for_header) does.
    #[inline]
    #[must_use]
    pub fn best_for_header(self, header: &[u8]) -> Option<usize> {
        best_among(header, &self)
    }

    /// Returns the index of the best tag for a parsed header, as
    /// [`best_for_accept_language`](crate::erased::choice::best_for_accept_language) does.
    #[cfg(feature = "alloc")]
    #[inline]
    #[must_use]
    pub fn best_for_accept_language(self, accepted: &AcceptLanguage<'_>) -> Option<usize> {
        best_among(accepted.ranges(), &self)
    }

    /// Returns the index of the best tag for a list of language ranges, as
    /// [`best_for_ranges`](crate::choice::best_for_ranges) does.
    #[inline]
    #[must_use]
    pub fn best_for_ranges(self, ranges: &[LanguageRange<'_>]) -> Option<usize> {
        best_among(ranges, &self)
    }

    /// Returns the best tag for an Accept-Language header with the range that it serves, as
    /// [`match_for_header`](crate::choice::match_for_header) does.
    #[inline]
    #[must_use]
    pub fn match_for_header<'a>(self, header: &'a [u8]) -> Option<BestMatch<'a>> {
        match_among(header, &self)
    }
}

impl TagList for Site<'_, '_> {
    #[inline]
    fn count(&self) -> usize {
        self.tags.len()
    }

    #[inline]
    fn tag_at(&self, index: usize) -> Option<LangTag<'_>> {
        Some(self.tags[index].tag())
    }

    #[inline]
    fn bytes_at(&self, index: usize) -> &[u8] {
        self.tags[index].tag().as_bytes()
    }

    #[inline]
    fn form_at(&self, index: usize) -> Option<&PreparedForm> {
        Some(self.tags[index].form())
    }
}
