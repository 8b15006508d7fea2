// Generated from crates/langtag_range/src/wanted.rt. Do not edit.

//! The language ranges of a header, read leniently.

use crate::erased::range::plain_element::plain_element;
use crate::erased::range::split::split_at_byte;
use crate::erased::range::wanted_element::wanted_at;

/// A language range of a header, and its weight. Its bytes may have `_` instead of a hyphen.
///
/// ```
/// use langtag::matching::wanted_ranges;
///
/// let mut wanted = wanted_ranges(b"de_CH;q=0.5");
/// assert_eq!(wanted.next().map(|range| (range.bytes, range.weight)), Some((&b"de_CH"[..], 500)));
/// ```
#[derive(Clone, Copy, PartialEq, Eq, Hash)]
pub struct WantedRange<'a> {
    /// The string, in which `_` means `-`: `de_CH` is the range `de-CH`.
    pub bytes: &'a [u8],
    /// The weight in thousandths, from 0 to 1000. A range of weight 0 is not acceptable.
    pub weight: u32,
}

/// The iterator that [`wanted_ranges`] returns. It does not allocate.
///
/// ```
/// use langtag::matching::wanted_ranges;
///
/// assert_eq!(wanted_ranges(b"de_CH, german language, en;q=0").count(), 2);
/// ```
#[derive(Debug, Clone)]
pub struct WantedRanges<'a> {
    rest: &'a [u8],
}

/// Returns an iterator over the language ranges of an Accept-Language header, in the header's
/// order. It accepts any header, and includes ranges of weight 0. For
/// `de_CH, zh_CN.UTF-8;q=1.5, german language;q=0.3, en;level=1;Q=.5` the ranges are `de-CH` and
/// `zh-CN`, of weight 1000, and `en`, of weight 500.
///
/// In a range, `_` is read as `-`, and everything from the first `.`, `@` or `_#` on is dropped, as
/// in `zh_TW_#Hant`. If the rest is not a range, the element is skipped. Parameters other than `q`
/// are ignored. A weight that is not a number, or is above 1, counts as 1. A weight may have a
/// decimal comma: `fr;q=0,8` has the weight 800, because no range begins with a digit. In contrast,
/// `AcceptLanguage` follows RFC 9110 strictly.
///
/// ```
/// use langtag::matching::wanted_ranges;
///
/// let mut ranges = wanted_ranges(b"de_CH, en;q=.5");
/// assert_eq!(ranges.next().map(|it| (it.bytes, it.weight)), Some((&b"de_CH"[..], 1000)));
/// assert_eq!(ranges.next().map(|it| (it.bytes, it.weight)), Some((&b"en"[..], 500)));
/// ```
#[inline]
#[must_use]
pub fn wanted_ranges(header: &[u8]) -> WantedRanges<'_> {
    WantedRanges { rest: header }
}

impl<'a> Iterator for WantedRanges<'a> {
    type Item = WantedRange<'a>;

    #[inline]
    fn next(&mut self) -> Option<WantedRange<'a>> {
        let Some((found, rest)) = split_wanted(self.rest) else {
            self.rest = b"";
            return None;
        };
        self.rest = rest;
        Some(found)
    }
}

/// Returns the first range of a header, as [`wanted_ranges`] reads it, and a string that has the
/// other ranges, such as what stands after its comma. Returns `None` if there is no range. Use it
/// instead of the iterator if the state of your loop has to be a `Copy` value.
///
/// ```
/// use langtag::erased::matching::split_wanted;
///
/// let found = split_wanted(b"de,en");
/// assert_eq!(found.map(|(first, rest)| (first.bytes, rest)), Some((&b"de"[..], &b"en"[..])));
/// ```
#[inline]
#[must_use]
pub fn split_wanted(header: &[u8]) -> Option<(WantedRange<'_>, &[u8])> {
    let mut left = header;
    while !left.is_empty() {
        if let Some(found) = plain_element(left) {
            return Some(found);
        }
        let (item, rest) = split_at_byte(left, b',');
        if let Some(found) = wanted_at(item, rest) {
            return Some((found, rest));
        }
        left = rest;
    }
    None
}
