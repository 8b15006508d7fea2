// Generated from crates/langtag_match/src/accept_language.rt. Do not edit.

//! The language ranges in an Accept-Language header (RFC 9110 section 12.5.4).

use crate::erased::matching::accept_language_error::AcceptLanguageError;
use crate::erased::matching::element::{element_at, BadElement};
use crate::erased::matching::lookup::tag_for;
use crate::erased::matching::weighted_range::WeightedRange;
use crate::erased::range::{is_empty_element, split_at_byte, trimmed_place};
use crate::erased::tag::LangTag;
use crate::shim::{try_string, AllocError, TryItems};
use alloc::vec::Vec;
use core::cmp::Reverse;

/// The ranges that a header accepts, the greatest weight first. For `fr;q=0.5, de, *;q=0` these are
/// `de` with the weight 1000 and `fr` with 500.
///
/// ```
/// # fn main() -> Result<(), Box<dyn std::error::Error>> {
/// use langtag::matching::AcceptLanguage;
///
/// let accepted = AcceptLanguage::new("fr;q=0.5, de, *;q=0")?;
/// assert_eq!(accepted.ranges().len(), 2);
/// assert_eq!(accepted.ranges()[0].range.as_str(), "de");
/// # Ok(())
/// # }
/// ```
#[derive(Debug, Clone, PartialEq, Eq, Hash)]
pub struct AcceptLanguage<'a> {
    ranges: Vec<WeightedRange<'a>>,
}

impl<'a> AcceptLanguage<'a> {
    /// Parses a header by RFC 9110, and leaves out the ranges of weight 0, which are not
    /// acceptable. Ranges of equal weight keep their order. Empty elements are skipped.
    ///
    /// # Errors
    ///
    /// Returns `BadElement` if an element is neither empty nor a basic language range with an
    /// optional weight. The error contains the whole header, and the index and offset of the first
    /// such element. Returns `Memory` if allocation fails.
    ///
    /// ```
    /// use langtag::matching::AcceptLanguage;
    ///
    /// assert!(AcceptLanguage::new(",de,").is_ok());
    /// ```
    #[inline]
    pub fn new(header: &'a str) -> Result<AcceptLanguage<'a>, AcceptLanguageError> {
        let (read, bad) = elements(header)?;
        if let Some(bad) = bad {
            return Err(AcceptLanguageError::BadElement {
                header: try_string(header)?,
                index: bad.index,
                offset: bad.offset,
                part: bad.part,
            });
        }
        Ok(AcceptLanguage::by_weight(read)?)
    }

    /// Parses a header as [`AcceptLanguage::new`] does, but skips malformed elements: `de, *-CH`
    /// has the range `de`.
    ///
    /// # Errors
    ///
    /// Returns an error if allocation fails.
    ///
    /// ```
    /// # fn main() -> Result<(), Box<dyn std::error::Error>> {
    /// use langtag::matching::AcceptLanguage;
    ///
    /// let accepted = AcceptLanguage::try_lenient("de_CH, fr;q=0.5, de")?;
    /// assert_eq!(accepted.ranges().first().map(|first| first.range.as_str()), Some("de"));
    /// # Ok(())
    /// # }
    /// ```
    #[inline]
    pub fn try_lenient(header: &'a str) -> Result<AcceptLanguage<'a>, AllocError> {
        let (read, _) = elements(header)?;
        AcceptLanguage::by_weight(read)
    }

    /// Leaves out the elements of weight 0, and sorts the other elements by descending weight.
    #[inline]
    fn by_weight(elements: Vec<WeightedRange<'a>>) -> Result<AcceptLanguage<'a>, AllocError> {
        let mut ranges = elements;
        ranges.retain(|weighted| weighted.weight > 0);
        ranges.try_sort_by_key(|weighted| Reverse(weighted.weight))?;
        Ok(AcceptLanguage { ranges })
    }

    /// Returns the ranges, the greatest weight first. Two ranges are equal if their weights are
    /// equal, and their strings are, ignoring case.
    ///
    /// ```
    /// # fn main() -> Result<(), Box<dyn std::error::Error>> {
    /// use langtag::matching::AcceptLanguage;
    ///
    /// let accepted = AcceptLanguage::new("fr;q=0.5, de")?;
    /// assert_eq!(accepted.ranges().first().map(|first| first.range.as_str()), Some("de"));
    /// # Ok(())
    /// # }
    /// ```
    #[inline]
    #[must_use]
    pub fn ranges(&self) -> &[WeightedRange<'a>] {
        self.ranges.as_slice()
    }

    /// Returns the tag that lookup finds for the ranges, or the default, as
    /// [`look_up`](crate::matching::look_up) does.
    ///
    /// ```
    /// # fn main() -> Result<(), Box<dyn std::error::Error>> {
    /// use langtag::LangTag;
    /// use langtag::matching::AcceptLanguage;
    ///
    /// let accepted = AcceptLanguage::new("fr;q=0.3, DE-ch-1996;q=0.9")?;
    /// let tags = [LangTag::new("de-CH")?, LangTag::new("fr")?];
    /// assert_eq!(accepted.look_up(&tags, &LangTag::new("en")?).as_str(), "de-CH");
    /// # Ok(())
    /// # }
    /// ```
    #[inline]
    pub(crate) fn look_up_tag<'t>(
        &self,
        tags: &[LangTag<'t>],
        default: LangTag<'t>,
    ) -> LangTag<'t> {
        for weighted in self.ranges() {
            if let Some(tag) = tag_for(weighted.range, tags) {
                return tag;
            }
        }
        default
    }
}

/// Returns the tag that lookup finds for a header, or the default. It does what
/// [`AcceptLanguage::new`] and [`AcceptLanguage::look_up`] do, in one call.
///
/// For `fr;q=0.3, DE-ch-1996;q=0.9` and the tags `de-CH` and `fr` it returns `de-CH`.
///
/// This follows RFC 4647 to the letter, so `zh-TW` does not find `zh-Hant`. Most web sites should
/// call `langtag::choice::best_for_header` instead.
///
/// # Errors
///
/// Returns the errors of [`AcceptLanguage::new`].
///
/// ```
/// # fn main() -> Result<(), Box<dyn std::error::Error>> {
/// use langtag::erased::tag::LangTag;
/// use langtag::erased::matching::tag_for_header;
///
/// let tags = [LangTag::new("de-CH")?, LangTag::new("fr")?];
/// assert_eq!(
///     tag_for_header("fr;q=0.3, DE-ch-1996;q=0.9", &tags, LangTag::new("en")?)?.as_str(),
///     "de-CH"
/// );
/// # Ok(())
/// # }
/// ```
#[inline]
pub fn tag_for_header<'h, 't>(
    header: &'h str,
    tags: &[LangTag<'t>],
    default: LangTag<'t>,
) -> Result<LangTag<'t>, AcceptLanguageError> {
    let accepted = AcceptLanguage::new(header)?;
    Ok(accepted.look_up_tag(tags, default))
}

/// Returns the elements of a header that are well-formed, in order, and its first malformed
/// element.
#[inline]
fn elements(header: &str) -> Result<(Vec<WeightedRange<'_>>, Option<BadElement>), AllocError> {
    let mut elements = Vec::new();
    let mut bad = None;
    let mut left = header.as_bytes();
    let mut index = 0;
    while !left.is_empty() {
        let (item, rest) = split_at_byte(left, b',');
        match element_at(item) {
            Ok(element) => elements
                .try_push(element.weighted)
                .map_err(AllocError::from)?,
            Err(part) if bad.is_none() && !is_empty_element(item) => {
                bad = Some(BadElement {
                    index,
                    offset: header.len() - left.len() + trimmed_place(item).0,
                    part,
                });
            }
            Err(_) => {}
        }
        index += 1;
        left = rest;
    }
    Ok((elements, bad))
}
