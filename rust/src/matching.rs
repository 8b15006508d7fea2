//! Matching by RFC 4647: language ranges, the tags that they match, lookup, and `Accept-Language`
//! headers (RFC 9110 section 12.5.4).
//!
//! ```
//! use langtag::matching::{look_up, tag_for_header, LanguageRange};
//! use langtag::LangTag;
//!
//! let range = LanguageRange::new("de-*-DE")?;
//! assert!(range.matches_extended(&LangTag::new("de-Latn-DE-1996")?));
//! assert!(!range.matches_extended(&LangTag::new("de-x-DE")?)); // no singleton may be left out
//!
//! assert_eq!(look_up(&["de-CH"], &["en", "de"], &"en"), &"de");
//! # #[cfg(feature = "alloc")]
//! assert_eq!(tag_for_header("en;q=0.5, de-CH", &["en", "de"], &"en")?, &"de");
//! # Ok::<(), Box<dyn std::error::Error>>(())
//! ```
//!
//! Lookup finds `zh` for `zh-TW`, but not `zh-Hant`. Most sites want
#![cfg_attr(
    feature = "data",
    doc = "[`choice::best_for_header`](crate::choice::best_for_header)."
)]
#![cfg_attr(not(feature = "data"), doc = "`choice::best_for_header`.")]
use crate::erased::range::is_range;
use crate::lists::{Ranges, TagEntry};
use crate::LangTag;

#[cfg(feature = "alloc")]
pub use crate::erased::matching::{AcceptLanguage, AcceptLanguageError, LanguageRangeBuf};
pub use crate::erased::matching::{
    ElementPart, Fallbacks, InvalidLanguageRange, LanguageRange, WantedRange, WantedRanges,
    WeightedRange,
};

impl LanguageRange<'_> {
    /// Returns whether the range matches a tag by basic filtering ([RFC 4647 section 3.3.1]):
    /// `de-DE` matches `de-DE-1996`, but neither `de-Deva` nor `de-Latn-DE`.
    ///
    /// The range `*` matches every tag. In other ranges, `*` equals no subtag, so `de-*` matches
    /// nothing.
    ///
    /// ```
    /// use langtag::matching::LanguageRange;
    /// use langtag::LangTag;
    ///
    /// let range = LanguageRange::new("de-DE")?;
    /// assert!(range.matches_basic(LangTag::new("de-DE-1996")?));
    /// assert!(!range.matches_basic(LangTag::new("de-Latn-DE")?));
    /// # Ok::<(), Box<dyn std::error::Error>>(())
    /// ```
    ///
    /// [RFC 4647 section 3.3.1]: https://www.rfc-editor.org/rfc/rfc4647#section-3.3.1
    #[inline]
    #[must_use]
    pub fn matches_basic<'t>(self, tag: impl Into<LangTag<'t>>) -> bool {
        self.is_basic_match(&tag.into())
    }

    /// Returns whether the range matches a tag by extended filtering ([RFC 4647 section 3.3.2]):
    /// `de-DE` and `de-*-DE` match `de-Latn-DE-1996`.
    ///
    /// They do not match `de-x-DE`, because a singleton is never skipped.
    ///
    /// ```
    /// use langtag::matching::LanguageRange;
    /// use langtag::LangTag;
    ///
    /// let range = LanguageRange::new("de-DE")?;
    /// assert!(range.matches_extended(LangTag::new("de-Latn-DE-1996")?));
    /// assert!(!range.matches_extended(LangTag::new("de-x-DE")?));
    /// # Ok::<(), Box<dyn std::error::Error>>(())
    /// ```
    ///
    /// [RFC 4647 section 3.3.2]: https://www.rfc-editor.org/rfc/rfc4647#section-3.3.2
    #[inline]
    #[must_use]
    pub fn matches_extended<'t>(self, tag: impl Into<LangTag<'t>>) -> bool {
        self.is_extended_match(&tag.into())
    }
}

/// Returns the ranges of an `Accept-Language` header with their weights, in order. A malformed
/// element is read as far as possible, as the choice of a tag reads it.
///
/// ```
/// use langtag::matching::wanted_ranges;
///
/// let ranges: Vec<_> = wanted_ranges("de_CH, en;q=0.5").map(|it| (it.bytes, it.weight)).collect();
/// assert_eq!(ranges, [(&b"de_CH"[..], 1000), (b"en", 500)]);
/// ```
#[must_use]
pub fn wanted_ranges(header: &(impl AsRef<[u8]> + ?Sized)) -> WantedRanges<'_> {
    crate::erased::matching::wanted_ranges(header.as_ref())
}

/// Returns an iterator over the tags that match one of some language ranges by basic filtering
/// ([RFC 4647 section 3.3.1]): first those that match the first range. No entry comes twice.
///
/// A string that is not a language range matches nothing, and a string that is not a tag never
/// matches.
///
/// ```
/// use langtag::matching::filter_basic;
///
/// let tags = ["de-Latn-DE", "fr", "de-DE-1996"];
/// assert!(filter_basic(&["de-DE", "fr"], &tags).eq(&["de-DE-1996", "fr"]));
/// ```
///
/// [RFC 4647 section 3.3.1]: https://www.rfc-editor.org/rfc/rfc4647#section-3.3.1
pub fn filter_basic<'r, 't, R: AsRef<str>, T: TagEntry>(
    ranges: &'r [R],
    tags: &'t [T],
) -> impl Iterator<Item = &'t T> + use<'r, 't, R, T> {
    filtered(ranges, tags, |range, tag| range.matches_basic(tag))
}

/// Returns an iterator over the tags that match one of some language ranges by extended filtering
/// ([RFC 4647 section 3.3.2]), as [`filter_basic`] does by basic filtering.
///
/// ```
/// use langtag::matching::filter_extended;
///
/// let tags = ["de-Latn-DE", "fr", "de-DE-1996"];
/// assert!(filter_extended(&["de-DE"], &tags).eq(&["de-Latn-DE", "de-DE-1996"]));
/// ```
///
/// [RFC 4647 section 3.3.2]: https://www.rfc-editor.org/rfc/rfc4647#section-3.3.2
pub fn filter_extended<'r, 't, R: AsRef<str>, T: TagEntry>(
    ranges: &'r [R],
    tags: &'t [T],
) -> impl Iterator<Item = &'t T> + use<'r, 't, R, T> {
    filtered(ranges, tags, |range, tag| range.matches_extended(tag))
}

fn filtered<'r, 't, R: AsRef<str>, T: TagEntry>(
    ranges: &'r [R],
    tags: &'t [T],
    matches: fn(LanguageRange<'_>, LangTag<'_>) -> bool,
) -> impl Iterator<Item = &'t T> + use<'r, 't, R, T> {
    let ranges = Ranges(ranges);
    ranges.enumerate().flat_map(move |(index, range)| {
        tags.iter().filter(move |entry| {
            entry.tag().is_some_and(|tag| {
                let is_found = || ranges.take(index).any(|earlier| matches(earlier, tag));
                matches(range, tag) && !is_found()
            })
        })
    })
}

/// Returns the tag that lookup finds for a list of language ranges in order of preference, or the
/// default if no range finds a tag ([RFC 4647 section 3.4]).
///
/// A range finds the first tag that equals it. If no tag equals it, its
/// [`fallbacks`](LanguageRange::fallbacks) are tried, the longest first: after `zh-Hant-CN`, these
/// are `zh-Hant` and `zh`. A string that is not a language range is skipped. An extended range is
/// looked up without its `*`: `de-*-DE` as `de-DE`.
///
/// ```
/// use langtag::matching::look_up;
///
/// let tags = ["zh", "zh-Hant", "fr"];
/// assert_eq!(look_up(&["nl", "zh-Hant-CN"], &tags, &"en"), &"zh-Hant");
/// assert_eq!(look_up(&["nl"], &tags, &"en"), &"en");
/// ```
///
/// [RFC 4647 section 3.4]: https://www.rfc-editor.org/rfc/rfc4647#section-3.4
#[must_use]
#[inline]
pub fn look_up<'t, T: TagEntry>(
    ranges: &[impl AsRef<str>],
    tags: &'t [T],
    default: &'t T,
) -> &'t T {
    found(Ranges(ranges), tags).unwrap_or(default)
}

/// Returns the tag that lookup finds for an `Accept-Language` header, or the default ([RFC 4647
/// section 3.4]).
///
/// # Errors
///
/// Returns the errors of [`AcceptLanguage::new`].
///
/// ```
/// use langtag::matching::tag_for_header;
/// use langtag::LangTagBuf;
///
/// let tags: Vec<LangTagBuf> = vec!["de-CH".parse()?, "fr".parse()?];
/// let found = tag_for_header("fr;q=0.3, DE-ch-1996;q=0.9", &tags, &tags[1]);
/// assert_eq!(found.unwrap(), "de-CH");
/// assert!(tag_for_header("de_CH", &tags, &tags[1]).is_err());
/// # Ok::<(), Box<dyn std::error::Error>>(())
/// ```
///
/// [RFC 4647 section 3.4]: https://www.rfc-editor.org/rfc/rfc4647#section-3.4
#[cfg(feature = "alloc")]
#[inline]
pub fn tag_for_header<'t, T: TagEntry>(
    header: &str,
    tags: &'t [T],
    default: &'t T,
) -> Result<&'t T, AcceptLanguageError> {
    Ok(AcceptLanguage::new(header)?.look_up(tags, default))
}

#[cfg(feature = "alloc")]
impl AcceptLanguage<'_> {
    /// Returns the tag that lookup finds for the ranges, or the default, as [`look_up`] does.
    ///
    /// ```
    /// use langtag::matching::AcceptLanguage;
    /// use langtag::LangTagBuf;
    ///
    /// let tags: Vec<LangTagBuf> = vec!["de-CH".parse()?, "fr".parse()?];
    /// let accepted = AcceptLanguage::lenient("fr;q=0.3, DE-ch-1996;q=0.9");
    /// assert_eq!(accepted.look_up(&tags, &tags[1]), "de-CH");
    /// # Ok::<(), Box<dyn std::error::Error>>(())
    /// ```
    #[must_use]
    #[inline]
    pub fn look_up<'t, T: TagEntry>(&self, tags: &'t [T], default: &'t T) -> &'t T {
        let ranges = self.ranges().iter().map(|weighted| weighted.range);
        found(ranges, tags).unwrap_or(default)
    }
}

/// Returns the tag that lookup finds.
#[inline]
fn found<'r, 't, T: TagEntry>(
    mut ranges: impl Iterator<Item = LanguageRange<'r>>,
    tags: &'t [T],
) -> Option<&'t T> {
    ranges.find_map(|range| range.fallbacks().find_map(|it| equal(it, tags)))
}

/// Returns the first tag that equals a range, ignoring case and each `-*`.
#[inline]
fn equal<'t, T: TagEntry>(range: LanguageRange<'_>, tags: &'t [T]) -> Option<&'t T> {
    let range = range.as_bytes();
    tags.iter()
        .find(|entry| is_range(entry.tag_bytes(), range) && entry.tag().is_some())
}
