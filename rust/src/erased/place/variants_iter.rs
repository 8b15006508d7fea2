// Generated from crates/langtag_place/src/variants_iter.rt. Do not edit.

//! An iterator over the variants of a tag, from either end.

use crate::erased::place::variant::Variant;
use crate::erased::place::variants::Variants;
use crate::erased::scan::Subtags;

/// An iterator over variants ([RFC 5646 section 2.2.5]), in the order of the string and from either
/// end: `rozaj` and `1994` for `rozaj-1994`.
///
/// ```
/// # fn main() -> Result<(), Box<dyn std::error::Error>> {
/// use langtag::Variants;
///
/// let mut items = Variants::new("rozaj-1994")?.iter();
/// assert_eq!(items.next().map(|item| item.as_str()), Some("rozaj"));
/// assert_eq!(items.next().map(|item| item.as_str()), Some("1994"));
/// assert_eq!(items.next(), None);
/// # Ok(())
/// # }
/// ```
///
/// [RFC 5646 section 2.2.5]: https://www.rfc-editor.org/rfc/rfc5646#section-2.2.5
#[derive(Debug, Clone)]
pub struct VariantsIter<'a> {
    rest: Subtags<'a>,
}

impl<'a> VariantsIter<'a> {
    /// Returns an iterator over no variants.
    ///
    /// ```
    /// use langtag::VariantsIter;
    ///
    /// assert_eq!(VariantsIter::empty().count(), 0);
    /// ```
    #[inline]
    #[must_use]
    pub fn empty() -> Self {
        Variants::EMPTY.iter()
    }

    /// Returns an iterator over the variants of a string that is known to be a list of variants.
    #[inline]
    pub(crate) fn new(text: &'a str) -> Self {
        VariantsIter {
            rest: Subtags::new(text),
        }
    }
}

impl Default for VariantsIter<'_> {
    #[inline]
    fn default() -> Self {
        VariantsIter::empty()
    }
}

impl<'a> Iterator for VariantsIter<'a> {
    type Item = Variant<'a>;

    #[inline]
    fn next(&mut self) -> Option<Variant<'a>> {
        let text = self.rest.next()?;
        Some(Variant::from_checked(text))
    }
}

impl<'a> DoubleEndedIterator for VariantsIter<'a> {
    #[inline]
    fn next_back(&mut self) -> Option<Variant<'a>> {
        let text = self.rest.next_back()?;
        Some(Variant::from_checked(text))
    }
}
