// Generated from crates/langtag_choice/src/range_list.rt. Do not edit.

//! The lists of language ranges for which a tag can be chosen.

use crate::erased::matching::{LanguageRange, WeightedRange};
use crate::erased::range::{split_wanted, WantedRange};

/// Language ranges with their weights, in the user's order. It is implemented for an
/// Accept-Language header in a slice of bytes, and for slices of [`WeightedRange`] and of
/// [`LanguageRange`]. Walking over the ranges does not allocate.
///
/// ```
/// # fn main() -> Result<(), Box<dyn std::error::Error>> {
/// use langtag::LangTag;
/// use langtag::choice::best_for_ranges;
/// use langtag::matching::LanguageRange;
///
/// let tags = [LangTag::new("en")?, LangTag::new("nb")?];
/// assert_eq!(best_for_ranges(&[LanguageRange::new("nn")?], &tags), Some(1));
/// # Ok(())
/// # }
/// ```
pub trait RangeList<'a>: Copy {
    /// Returns the first range and the ranges after it, or `None` if none is left. In its bytes `_`
    /// means `-`, and each `-*` is ignored.
    fn split_range(self) -> Option<(WantedRange<'a>, Self)>;
}

/// An Accept-Language header, read as `langtag::matching::wanted_ranges` reads it.
impl<'a> RangeList<'a> for &'a [u8] {
    #[inline]
    fn split_range(self) -> Option<(WantedRange<'a>, &'a [u8])> {
        split_wanted(self)
    }
}

/// Ranges with their weights.
impl<'a> RangeList<'a> for &'a [WeightedRange<'a>] {
    fn split_range(self) -> Option<(WantedRange<'a>, &'a [WeightedRange<'a>])> {
        let (first, rest) = self.split_first()?;
        let wanted = WantedRange {
            bytes: first.range.as_str().as_bytes(),
            weight: first.weight,
        };
        Some((wanted, rest))
    }
}

/// Ranges, in order of preference.
impl<'a> RangeList<'a> for &'a [LanguageRange<'a>] {
    fn split_range(self) -> Option<(WantedRange<'a>, &'a [LanguageRange<'a>])> {
        let (first, rest) = self.split_first()?;
        let wanted = WantedRange {
            bytes: first.as_str().as_bytes(),
            weight: 1000,
        };
        Some((wanted, rest))
    }
}

/// Returns the bytes of the range with `place` ranges before it.
pub(crate) fn range_at<'a, R: RangeList<'a>>(ranges: R, place: usize) -> Option<&'a [u8]> {
    let mut before = place;
    let mut left = ranges;
    while let Some((wanted, rest)) = left.split_range() {
        if before == 0 {
            return Some(wanted.bytes);
        }
        before -= 1;
        left = rest;
    }
    None
}
