// Generated from crates/langtag_extension/src/extensions_iter.rt. Do not edit.

//! An iterator over the extensions of a tag.

use crate::erased::extension::extension::Extension;
use crate::erased::extension::extension_texts::ExtensionTexts;

/// An iterator over extensions ([RFC 5646 section 2.2.6]), in the order of the string: `a-ext1` and
/// `u-co` for `a-ext1-u-co`.
///
/// ```
/// # fn main() -> Result<(), Box<dyn std::error::Error>> {
/// use langtag::Extensions;
///
/// let mut items = Extensions::new("a-bb-u-co")?.iter();
/// assert_eq!(items.next().map(|item| item.as_str()), Some("a-bb"));
/// assert_eq!(items.next().map(|item| item.as_str()), Some("u-co"));
/// assert_eq!(items.next(), None);
/// # Ok(())
/// # }
/// ```
///
/// [RFC 5646 section 2.2.6]: https://www.rfc-editor.org/rfc/rfc5646#section-2.2.6
#[derive(Debug, Clone)]
pub struct ExtensionsIter<'a> {
    rest: ExtensionTexts<'a>,
}

impl<'a> ExtensionsIter<'a> {
    /// Returns an iterator over the extensions of a string.
    #[inline]
    pub(crate) fn new(text: &'a str) -> Self {
        ExtensionsIter {
            rest: ExtensionTexts::new(text),
        }
    }
}

impl<'a> Iterator for ExtensionsIter<'a> {
    type Item = Extension<'a>;

    #[inline]
    fn next(&mut self) -> Option<Extension<'a>> {
        let text = self.rest.next()?;
        Some(Extension::from_checked(text))
    }
}
