// Generated from crates/langtag_unicode/src/attributes_iter.rt. Do not edit.

//! An iterator over the attributes of a tag.

use crate::erased::keyword::is_earlier_subtag;
use crate::erased::tag::Subtags;

/// The iterator that `attributes` returns: the attributes of the extension `u`, in the order of the
/// tag, each once.
///
/// ```
/// # fn main() -> Result<(), Box<dyn std::error::Error>> {
/// use langtag::LangTag;
///
/// assert_eq!(LangTag::new("de-u-attr-foo-ATTR-ca-buddhist")?.attributes().count(), 2);
/// # Ok(())
/// # }
/// ```
#[derive(Debug, Clone)]
pub struct AttributesIter<'a> {
    text: &'a str,
    passed: usize,
    rest: Subtags<'a>,
}

impl<'a> AttributesIter<'a> {
    /// Returns an iterator over the distinct subtags of a string.
    #[inline]
    pub(crate) fn new(text: &'a str) -> Self {
        AttributesIter {
            text,
            passed: 0,
            rest: Subtags::new(text),
        }
    }
}

impl<'a> Iterator for AttributesIter<'a> {
    type Item = &'a str;

    fn next(&mut self) -> Option<&'a str> {
        while let Some(attribute) = self.rest.next() {
            let is_repeated = is_earlier_subtag(self.text, self.passed, attribute);
            self.passed += 1;
            if !is_repeated {
                return Some(attribute);
            }
        }
        None
    }
}
