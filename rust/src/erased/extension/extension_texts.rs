// Generated from crates/langtag_extension/src/extension_texts.rt. Do not edit.

//! An iterator over the strings of the extensions in a string.

use crate::erased::scan::segment_end;

/// An iterator over the strings of extensions. The whole string is split before each subtag of one
/// byte.
#[derive(Debug, Clone)]
pub(crate) struct ExtensionTexts<'a> {
    rest: Option<&'a str>,
}

impl<'a> ExtensionTexts<'a> {
    /// Returns an iterator over the extensions of a string. The empty string has none.
    #[inline]
    pub(crate) fn new(text: &'a str) -> Self {
        if text.is_empty() {
            return ExtensionTexts { rest: None };
        }
        ExtensionTexts { rest: Some(text) }
    }
}

impl<'a> Iterator for ExtensionTexts<'a> {
    type Item = &'a str;

    #[inline]
    fn next(&mut self) -> Option<&'a str> {
        let text = self.rest?;
        let (first, rest) = split_extension(text);
        self.rest = rest;
        Some(first)
    }
}

/// Returns the string of the first extension, and the string of the other extensions if there are
/// any, without the hyphen in between.
#[inline]
fn split_extension(text: &str) -> (&str, Option<&str>) {
    let end = first_extension_end(text.as_bytes());
    if end == text.len() {
        return (text, None);
    }
    (&text[..end], Some(&text[end + 1..]))
}

/// Returns where the first extension of a string ends: at the first hyphen that is followed by a
/// subtag of one byte, or at the end of the string. The first subtag, which is the singleton, does
/// not end the extension.
#[inline]
#[must_use]
pub fn first_extension_end(text: &[u8]) -> usize {
    let mut end = segment_end(text, 0);
    while end < text.len() {
        let next = segment_end(text, end + 1);
        if next == end + 2 {
            return end;
        }
        end = next;
    }
    end
}
