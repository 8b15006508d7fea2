// Generated from crates/langtag_c/src/spanned.rt. Do not edit.

//! Spans of a string as tags and as language ranges.

use crate::calls::span::Span;
use crate::calls::tag::tag_of;
use crate::erased::range::{listed_range, WantedRange};
use crate::erased::tag::LangTag;

/// Returns a span of a string as a tag, or `None` if it is not one.
#[inline]
pub(crate) fn tag_in<'a>(text: &'a [u8], span: Span) -> Option<LangTag<'a>> {
    tag_of(span.of(text)?)
}

/// Returns the bytes of a span of a string, or no bytes if the span reaches beyond the string.
#[inline]
pub(crate) fn bytes_in<'a>(text: &'a [u8], span: Span) -> &'a [u8] {
    span.of(text).unwrap_or(b"")
}

/// Returns a span of a string as a language range, or `None` if it is not one.
#[inline]
pub(crate) fn range_in<'a>(text: &'a [u8], span: Span) -> Option<WantedRange<'a>> {
    listed_range(span.of(text)?)
}
