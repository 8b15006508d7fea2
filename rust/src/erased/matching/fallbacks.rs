// Generated from crates/langtag_match/src/fallbacks.rt. Do not edit.

//! The fallbacks of a language range, which are made by removing subtags from its end (RFC 4647
//! section 3.4).

use crate::erased::matching::language_range::LanguageRange;
use crate::erased::range::shortened_len;

/// An iterator over a range and its fallbacks, the longest first: `zh-Hant-TW`, `zh-Hant` and `zh`
/// ([RFC 4647 section 3.4]).
///
/// A single letter or digit is removed together with the subtag after it, and so is `*`: `de-CH`
/// follows `de-CH-x-a`, and `de` follows `de-*-DE`.
///
/// ```
/// # fn main() -> Result<(), Box<dyn std::error::Error>> {
/// use langtag::matching::LanguageRange;
///
/// let range = LanguageRange::new("de-CH-x-a")?;
/// let mut shorter = range.fallbacks();
/// assert_eq!(shorter.next().map(|range| range.as_str()), Some("de-CH-x-a"));
/// assert_eq!(shorter.next().map(|range| range.as_str()), Some("de-CH"));
/// # Ok(())
/// # }
/// ```
///
/// [RFC 4647 section 3.4]: https://www.rfc-editor.org/rfc/rfc4647#section-3.4
#[derive(Clone, Debug)]
pub struct Fallbacks<'a> {
    rest: Option<LanguageRange<'a>>,
}

impl<'a> Fallbacks<'a> {
    /// Returns an iterator that starts at the range itself.
    #[inline]
    pub(crate) fn new(range: LanguageRange<'a>) -> Self {
        Fallbacks { rest: Some(range) }
    }
}

impl<'a> Iterator for Fallbacks<'a> {
    type Item = LanguageRange<'a>;

    #[inline]
    fn next(&mut self) -> Option<LanguageRange<'a>> {
        let range = self.rest?;
        self.rest = shortened(range);
        Some(range)
    }
}

/// Returns a range without its last subtag, and then without any single-character subtags at its
/// end.
#[inline]
fn shortened(range: LanguageRange<'_>) -> Option<LanguageRange<'_>> {
    let text = range.as_str();
    let len = shortened_len(text.as_bytes())?;
    Some(LanguageRange::from_checked(&text[..len]))
}
