// Generated from crates/langtag_match/src/element.rt. Do not edit.

//! An element of an Accept-Language header: a language range, and a weight (RFC 9110 section
//! 12.5.4).

use crate::erased::matching::accept_language_error::ElementPart;
use crate::erased::matching::language_range::LanguageRange;
use crate::erased::matching::weighted_range::WeightedRange;
use crate::erased::range::{is_basic_range, len_before, trimmed_place, weight_of};

/// An element of a header, and the offset of its range.
///
/// ```
/// use langtag::erased::matching::element_at;
///
/// let element = element_at(b" fr;q=0.5").ok();
/// assert_eq!(element.map(|element| (element.start, element.weighted.weight)), Some((1, 500)));
/// ```
#[derive(Debug)]
pub struct Element<'a> {
    /// The number of bytes before the range, which are spaces and tabs.
    pub start: usize,
    /// The range and its weight.
    pub weighted: WeightedRange<'a>,
}

/// A malformed element of a header. The fields are those of the error
/// `AcceptLanguageError::BadElement`.
pub(crate) struct BadElement {
    pub index: usize,
    pub offset: usize,
    pub part: ElementPart,
}

/// Parses the string between two commas of an Accept-Language header ([RFC 9110 section 12.5.4]).
/// In ` fr;q=0.5` the range is `fr`, which begins at 1, and the weight is 500. The default weight
/// is 1000. The bytes need not be UTF-8.
///
/// # Errors
///
/// Returns the part that is malformed if the string is not an element: the range in `fr_FR`, the
/// weight in `fr;q=2`. If both are malformed, or if the string is empty or only white space, the
/// error is the range. See [`is_empty_element`](crate::erased::range::is_empty_element).
///
/// ```
/// use langtag::erased::matching::element_at;
///
/// let element = element_at(b" fr;q=0.5").ok();
/// assert_eq!(
///     element.map(|it| (it.start, it.weighted.range.as_str(), it.weighted.weight)),
///     Some((1, "fr", 500))
/// );
/// ```
///
/// [RFC 9110 section 12.5.4]: https://www.rfc-editor.org/rfc/rfc9110#section-12.5.4
#[inline]
pub fn element_at(item: &[u8]) -> Result<Element<'_>, ElementPart> {
    let end = len_before(item, b';');
    let before = &item[..end];
    let (start, stop) = trimmed_place(before);
    let Some(range) = basic_range(&before[start..stop]) else {
        return Err(ElementPart::Range);
    };
    let Some(weight) = weight_after(item, end) else {
        return Err(ElementPart::Weight);
    };
    let weighted = WeightedRange { range, weight };
    Ok(Element { start, weighted })
}

/// Returns the weight after the first `;`, or 1000 if there is no `;`.
#[inline]
fn weight_after(item: &[u8], semicolon: usize) -> Option<u32> {
    if semicolon == item.len() {
        return Some(1000);
    }
    let text = &item[semicolon + 1..];
    let (start, end) = trimmed_place(text);
    weight_of(&text[start..end])
}

/// Returns the bytes as a basic language range, or `None` if they are not a basic language range.
#[inline]
fn basic_range(bytes: &[u8]) -> Option<LanguageRange<'_>> {
    let text = core::str::from_utf8(bytes).ok()?;
    if !is_basic_range(text) {
        return None;
    }
    Some(LanguageRange::from_checked(text))
}
