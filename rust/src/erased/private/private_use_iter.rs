// Generated from crates/langtag_private/src/private_use_iter.rt. Do not edit.

//! An iterator over the subtags of a private use part.

use crate::erased::private::private_use_subtag::PrivateUseSubtag;
use crate::erased::scan::Subtags;

/// An iterator over private use subtags ([RFC 5646 section 2.2.7]): `a` and `b` for `x-a-b`.
///
/// ```
/// # fn main() -> Result<(), Box<dyn std::error::Error>> {
/// use langtag::PrivateUse;
///
/// let mut items = PrivateUse::new("x-a-b")?.iter();
/// assert_eq!(items.next().map(|item| item.as_str()), Some("a"));
/// assert_eq!(items.next().map(|item| item.as_str()), Some("b"));
/// assert_eq!(items.next(), None);
/// # Ok(())
/// # }
/// ```
///
/// [RFC 5646 section 2.2.7]: https://www.rfc-editor.org/rfc/rfc5646#section-2.2.7
#[derive(Debug, Clone)]
pub struct PrivateUseIter<'a> {
    rest: Subtags<'a>,
}

impl<'a> PrivateUseIter<'a> {
    /// Returns an iterator over no subtags.
    ///
    /// ```
    /// use langtag::PrivateUseIter;
    ///
    /// assert_eq!(PrivateUseIter::empty().next(), None);
    /// ```
    #[inline]
    #[must_use]
    pub fn empty() -> Self {
        PrivateUseIter {
            rest: Subtags::empty(),
        }
    }

    /// Returns an iterator over the subtags of a private use part, without the `x` or `X` that
    /// begins it.
    #[inline]
    pub(crate) fn new(text: &'a str) -> Self {
        PrivateUseIter {
            rest: after_mark(text),
        }
    }
}

/// Returns the subtags of a string except the first, which is `x` or `X`.
#[inline]
fn after_mark(text: &str) -> Subtags<'_> {
    let mut rest = Subtags::new(text);
    let _mark = rest.next();
    rest
}

impl Default for PrivateUseIter<'_> {
    #[inline]
    fn default() -> Self {
        PrivateUseIter::empty()
    }
}

impl<'a> Iterator for PrivateUseIter<'a> {
    type Item = PrivateUseSubtag<'a>;

    #[inline]
    fn next(&mut self) -> Option<PrivateUseSubtag<'a>> {
        let text = self.rest.next()?;
        Some(PrivateUseSubtag::from_checked(text))
    }
}
