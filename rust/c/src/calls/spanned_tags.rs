// Generated from crates/langtag_c/src/spanned_tags.rt. Do not edit.

//! Tags as spans of a string.

use crate::calls::span::Span;
use crate::calls::spanned::{bytes_in, tag_in};
use crate::erased::choice::TagList;
use crate::erased::tag::LangTag;

/// A string, and spans of it that are tags.
#[derive(Clone, Copy)]
pub(crate) struct SpannedTags<'a> {
    pub(crate) text: &'a [u8],
    pub(crate) spans: &'a [Span],
}

impl TagList for SpannedTags<'_> {
    #[inline]
    fn count(&self) -> usize {
        self.spans.len()
    }

    #[inline]
    fn tag_at(&self, index: usize) -> Option<LangTag<'_>> {
        tag_in(self.text, self.spans[index])
    }

    #[inline]
    fn bytes_at(&self, index: usize) -> &[u8] {
        bytes_in(self.text, self.spans[index])
    }
}
