// Generated from crates/langtag_unicode/src/transformation.rt. Do not edit.

//! The parts of the extension `t`.

use crate::erased::keyword::{before_key, nonempty, value_in, Keys};
use crate::erased::unicode::keywords_iter::KeywordsIter;

/// The extension `t` of a tag ([RFC 6497 section 2.2]): the language of the string before it was
/// transformed, and how it was transformed.
///
/// ```
/// # fn main() -> Result<(), Box<dyn std::error::Error>> {
/// use langtag::LangTag;
///
/// let tag = LangTag::new("und-Cyrl-t-und-latn-m0-ungegn-2007")?;
/// let transform = tag.transform().ok_or("no such extension")?;
/// assert_eq!(transform.language(), Some("und-latn"));
/// assert_eq!(transform.field("M0"), Some("ungegn-2007"));
/// assert_eq!(transform.field("d0"), None);
/// # Ok(())
/// # }
/// ```
///
/// [RFC 6497 section 2.2]: https://www.rfc-editor.org/rfc/rfc6497#section-2.2
#[derive(Clone, Copy, Debug, PartialEq, Eq, Hash)]
pub struct Transformation<'a> {
    text: &'a str,
}

impl<'a> Transformation<'a> {
    /// Returns the extension with these subtags.
    #[inline]
    pub(crate) fn new(text: &'a str) -> Self {
        Transformation { text }
    }

    /// Returns the language of the source text, as a slice of the tag. It need not be a tag: for
    /// `und-t-abcd-efgh-ijkl` it is `abcd-efgh-ijkl`.
    ///
    /// ```
    /// # fn main() -> Result<(), Box<dyn std::error::Error>> {
    /// use langtag::LangTag;
    ///
    /// let found = LangTag::new("und-t-ja-latn-m0-hepburn")?.transform();
    /// assert_eq!(found.and_then(|it| it.language()), Some("ja-latn"));
    /// let found = LangTag::new("und-t-m0-hepburn")?.transform();
    /// assert_eq!(found.and_then(|it| it.language()), None);
    /// # Ok(())
    /// # }
    /// ```
    #[inline]
    #[must_use]
    pub fn language(self) -> Option<&'a str> {
        nonempty(before_key(nonempty(self.text), Keys::Transform))
    }

    /// Returns the value of a field, as a slice of the tag: in `und-t-ja-m0-hepburn` the field `m0`
    /// has the value `hepburn`. Case is ignored, and the first of repeated keys counts. Returns
    /// `None` if the field is absent, and the empty string if it has no value.
    ///
    /// ```
    /// # fn main() -> Result<(), Box<dyn std::error::Error>> {
    /// use langtag::LangTag;
    ///
    /// let found = LangTag::new("und-t-ja-m0-hepburn")?.transform();
    /// assert_eq!(found.and_then(|it| it.field("m0")), Some("hepburn"));
    /// # Ok(())
    /// # }
    /// ```
    #[inline]
    #[must_use]
    pub fn field(self, key: &str) -> Option<&'a str> {
        value_in(self.text, Keys::Transform, key.as_bytes())
    }

    /// Returns an iterator over the fields, in the order of the tag. Each key is returned once,
    /// with its first value.
    ///
    /// ```
    /// # fn main() -> Result<(), Box<dyn std::error::Error>> {
    /// use langtag::LangTag;
    ///
    /// let found = LangTag::new("und-t-ja-m0-hepburn")?.transform();
    /// let first = found.and_then(|it| it.fields().next());
    /// assert_eq!(first.map(|field| (field.key, field.value)), Some(("m0", "hepburn")));
    /// # Ok(())
    /// # }
    /// ```
    #[inline]
    #[must_use]
    pub fn fields(self) -> KeywordsIter<'a> {
        KeywordsIter::new(self.text, Keys::Transform)
    }
}
