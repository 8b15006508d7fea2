// Generated from crates/langtag_unicode/src/keywords_iter.rt. Do not edit.

//! An iterator over the keywords of a tag.

use crate::erased::keyword::{before_key, nonempty, split_first, KeySet, Keys};
use crate::erased::unicode::unicode_extension::KeyValue;

/// An iterator over the keywords of the extension `u`, or the fields of the extension `t`, in the
/// order of the tag.
///
/// Each key is returned once, with its first value.
///
/// ```
/// # fn main() -> Result<(), Box<dyn std::error::Error>> {
/// use langtag::LangTag;
///
/// assert_eq!(LangTag::new("de-u-kn-ca-buddhist-kn-false")?.keywords().count(), 2);
/// # Ok(())
/// # }
/// ```
#[derive(Debug, Clone)]
pub struct KeywordsIter<'a> {
    keys: Keys,
    met: KeySet,
    rest: Option<&'a str>,
}

impl<'a> KeywordsIter<'a> {
    /// Returns an iterator over the keywords among the subtags of a string.
    #[inline]
    pub(crate) fn new(text: &'a str, keys: Keys) -> Self {
        KeywordsIter {
            keys,
            met: KeySet::new(),
            rest: nonempty(text),
        }
    }
}

impl<'a> Iterator for KeywordsIter<'a> {
    type Item = KeyValue<'a>;

    fn next(&mut self) -> Option<KeyValue<'a>> {
        while let Some(text) = self.rest {
            let (key, rest) = split_first(text);
            let is_new = self.met.insert(key.as_bytes());
            self.rest = rest;
            if self.keys.has(key.as_bytes()) && is_new {
                let value = before_key(rest, self.keys);
                return Some(KeyValue { key, value });
            }
        }
        None
    }
}
