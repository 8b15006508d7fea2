// Generated from crates/langtag_language/src/language_extension_iter.rt. Do not edit.

//! An iterator over the extended subtags of a language.

use crate::erased::language::extended_lang_tag::ExtendedLangTag;
use crate::erased::scan::Subtags;

/// An iterator over extended subtags ([RFC 5646 section 2.2.2]): `min` and `nan` for `min-nan`.
///
/// ```
/// # fn main() -> Result<(), Box<dyn std::error::Error>> {
/// use langtag::LanguageExtension;
///
/// let mut items = LanguageExtension::new("min-nan")?.iter();
/// assert_eq!(items.next().map(|item| item.as_str()), Some("min"));
/// assert_eq!(items.next().map(|item| item.as_str()), Some("nan"));
/// assert_eq!(items.next(), None);
/// # Ok(())
/// # }
/// ```
///
/// [RFC 5646 section 2.2.2]: https://www.rfc-editor.org/rfc/rfc5646#section-2.2.2
#[derive(Debug, Clone)]
pub struct LanguageExtensionIter<'a> {
    rest: Subtags<'a>,
}

impl<'a> LanguageExtensionIter<'a> {
    /// Returns an iterator over no extended subtags.
    ///
    /// ```
    /// use langtag::LanguageExtensionIter;
    ///
    /// assert_eq!(LanguageExtensionIter::empty().next(), None);
    /// ```
    #[inline]
    #[must_use]
    pub fn empty() -> Self {
        LanguageExtensionIter {
            rest: Subtags::empty(),
        }
    }

    /// Returns an iterator over the subtags of a language extension.
    #[inline]
    pub(crate) fn new(text: &'a str) -> Self {
        LanguageExtensionIter {
            rest: Subtags::new(text),
        }
    }
}

impl Default for LanguageExtensionIter<'_> {
    #[inline]
    fn default() -> Self {
        LanguageExtensionIter::empty()
    }
}

impl<'a> Iterator for LanguageExtensionIter<'a> {
    type Item = ExtendedLangTag<'a>;

    #[inline]
    fn next(&mut self) -> Option<ExtendedLangTag<'a>> {
        let text = self.rest.next()?;
        Some(ExtendedLangTag::from_checked(text))
    }
}
