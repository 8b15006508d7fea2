// Generated from crates/langtag_text/src/in_recommended_case.rt. Do not edit.

//! A string that is displayed in its recommended case.

use crate::erased::text::recommended_bytes::RecommendedBytes;
use crate::erased::text::recommended_case::is_in_recommended_case;
use crate::shim::pad_ascii;
use core::fmt;

/// An ASCII text that is displayed in the case that [RFC 5646 section 2.1.1] recommends for tags:
/// `MN-cYRL-mn` is displayed as `mn-Cyrl-MN`.
///
/// It does not allocate. A string that is already in its recommended case is written in one call,
/// and any other string byte by byte.
///
/// ```
/// # fn main() -> Result<(), Box<dyn std::error::Error>> {
/// use langtag::LangTag;
///
/// let tag = LangTag::new("MN-cYRL-mn")?;
/// assert_eq!(format!("{}", tag.in_recommended_case()), "mn-Cyrl-MN");
/// # Ok(())
/// # }
/// ```
///
/// [RFC 5646 section 2.1.1]: https://www.rfc-editor.org/rfc/rfc5646#section-2.1.1
#[derive(Clone, Copy, Debug, PartialEq, Eq, Hash)]
pub struct InRecommendedCase<'a> {
    text: &'a str,
}

impl<'a> InRecommendedCase<'a> {
    /// Returns a value that displays an ASCII text in its recommended case.
    #[inline]
    pub(crate) fn from_checked(text: &'a str) -> Self {
        InRecommendedCase { text }
    }
}

impl fmt::Display for InRecommendedCase<'_> {
    #[inline]
    fn fmt(&self, f: &mut fmt::Formatter<'_>) -> fmt::Result {
        let bytes = self.text.as_bytes();
        if is_in_recommended_case(bytes) {
            return f.pad(self.text);
        }
        pad_ascii(f, bytes.len(), RecommendedBytes::new(bytes))
    }
}
