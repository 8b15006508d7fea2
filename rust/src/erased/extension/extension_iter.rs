// Generated from crates/langtag_extension/src/extension_iter.rt. Do not edit.

//! An iterator over the subtags of an extension.

use crate::erased::extension::extension_subtag::ExtensionSubtag;
use crate::erased::scan::Subtags;

/// An iterator over the subtags of an extension ([RFC 5646 section 2.2.6]), without the singleton:
/// `co` and `phonebk` for `u-co-phonebk`.
///
/// ```
/// # fn main() -> Result<(), Box<dyn std::error::Error>> {
/// use langtag::Extension;
///
/// let mut items = Extension::new("u-co-eor")?.iter();
/// assert_eq!(items.next().map(|item| item.as_str()), Some("co"));
/// assert_eq!(items.next().map(|item| item.as_str()), Some("eor"));
/// assert_eq!(items.next(), None);
/// # Ok(())
/// # }
/// ```
///
/// [RFC 5646 section 2.2.6]: https://www.rfc-editor.org/rfc/rfc5646#section-2.2.6
#[derive(Debug, Clone)]
pub struct ExtensionIter<'a> {
    rest: Subtags<'a>,
}

impl<'a> ExtensionIter<'a> {
    /// Returns an iterator over no subtags.
    ///
    /// ```
    /// use langtag::ExtensionIter;
    ///
    /// assert_eq!(ExtensionIter::empty().count(), 0);
    /// ```
    #[inline]
    #[must_use]
    pub fn empty() -> Self {
        ExtensionIter {
            rest: Subtags::empty(),
        }
    }

    /// Returns an iterator over the subtags of an extension, without its singleton.
    #[inline]
    pub(crate) fn new(text: &'a str) -> Self {
        ExtensionIter {
            rest: after_singleton(text),
        }
    }
}

/// Returns the subtags of a string except the first, which is the singleton.
#[inline]
fn after_singleton(text: &str) -> Subtags<'_> {
    let mut rest = Subtags::new(text);
    let _singleton = rest.next();
    rest
}

impl Default for ExtensionIter<'_> {
    #[inline]
    fn default() -> Self {
        ExtensionIter::empty()
    }
}

impl<'a> Iterator for ExtensionIter<'a> {
    type Item = ExtensionSubtag<'a>;

    #[inline]
    fn next(&mut self) -> Option<ExtensionSubtag<'a>> {
        let text = self.rest.next()?;
        Some(ExtensionSubtag::from_checked(text))
    }
}
