// Generated from crates/langtag_match/src/weighted_range.rt. Do not edit.

//! A language range with its weight (RFC 9110 section 12.5.4).
use crate::erased::matching::language_range::LanguageRange;

/// A language range and its weight: `fr;q=0.25` in a header is the range `fr` with the weight 250.
/// Two weighted ranges are equal if their weights are equal, and their ranges are equal, ignoring
/// case.
///
/// ```
/// # fn main() -> Result<(), Box<dyn std::error::Error>> {
/// use langtag::matching::AcceptLanguage;
///
/// let accepted = AcceptLanguage::new("fr;q=0.5")?;
/// assert_eq!(accepted.ranges()[0].weight, 500);
/// # Ok(())
/// # }
/// ```
#[derive(Clone, Copy, Debug, PartialEq, Eq, Hash)]
pub struct WeightedRange<'a> {
    /// The range, in the case of the header. In `AcceptLanguage::ranges` it is a basic range.
    pub range: LanguageRange<'a>,
    /// The weight in thousandths. In `AcceptLanguage::ranges` it is from 1 to 1000, because ranges
    /// of weight 0 are left out.
    pub weight: u32,
}
