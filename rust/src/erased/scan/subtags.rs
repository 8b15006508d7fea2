// Generated from crates/langtag_scan/src/subtags.rt. Do not edit.

//! An iterator over the subtags of a string (RFC 5646 section 2.1), which works from both ends and
//! copies nothing.

use crate::erased::scan::segment::{segment_end, segment_start};

/// An iterator over the subtags of a string, from either end. Each subtag is a slice of the string,
/// and contains no hyphen.
///
/// A hyphen at either end of the string gives an empty subtag, and so do two hyphens in a row:
/// `a--b-` has `a`, an empty subtag, `b` and an empty subtag.
///
/// ```
/// # fn main() -> Result<(), Box<dyn std::error::Error>> {
/// use langtag::LangTag;
///
/// let mut subtags = LangTag::new("zh-Hant-TW")?.subtags();
/// assert_eq!(subtags.next(), Some("zh"));
/// assert_eq!(subtags.next_back(), Some("TW"));
/// # Ok(())
/// # }
/// ```
#[derive(Debug, Clone)]
pub struct Subtags<'a> {
    rest: Option<&'a str>,
}

impl<'a> Subtags<'a> {
    /// Returns an iterator over all subtags of a string. The empty string has none.
    ///
    /// ```
    /// use langtag::scan::Subtags;
    ///
    /// let mut subtags = Subtags::new("fr-FR");
    /// assert_eq!(subtags.next(), Some("fr"));
    /// assert_eq!(subtags.next(), Some("FR"));
    /// assert_eq!(subtags.next(), None);
    /// ```
    #[inline]
    #[must_use]
    pub fn new(text: &'a str) -> Self {
        if text.is_empty() {
            return Subtags::empty();
        }
        Subtags { rest: Some(text) }
    }

    /// Returns an iterator over no subtags.
    ///
    /// ```
    /// use langtag::scan::Subtags;
    ///
    /// assert_eq!(Subtags::empty().next(), None);
    /// ```
    #[inline]
    #[must_use]
    pub fn empty() -> Self {
        Subtags { rest: None }
    }
}

impl<'a> Iterator for Subtags<'a> {
    type Item = &'a str;

    #[inline]
    fn next(&mut self) -> Option<&'a str> {
        let (first, rest) = split_first(self.rest?);
        self.rest = rest;
        Some(first)
    }
}

impl<'a> DoubleEndedIterator for Subtags<'a> {
    #[inline]
    fn next_back(&mut self) -> Option<&'a str> {
        let (prefix, last) = split_last(self.rest?);
        self.rest = prefix;
        Some(last)
    }
}

/// Returns the string before the first hyphen and the string after it. If there is no hyphen,
/// returns the whole string and `None`.
#[inline]
fn split_first(text: &str) -> (&str, Option<&str>) {
    let end = segment_end(text.as_bytes(), 0);
    if end == text.len() {
        return (text, None);
    }
    (&text[..end], Some(&text[end + 1..]))
}

/// Returns the string before the last hyphen and the string after it. If there is no hyphen,
/// returns `None` and the whole text.
#[inline]
fn split_last(text: &str) -> (Option<&str>, &str) {
    let start = segment_start(text.as_bytes(), text.len());
    if start == 0 {
        return (None, text);
    }
    (Some(&text[..start - 1]), &text[start..])
}
