// Generated from crates/langtag_c/src/tag.rt. Do not edit.

//! Reading bytes as tags.

use crate::erased::tag::{LangTag, NormalLangTag};

/// Returns the bytes as a tag, or `None` if they are not a tag.
#[inline]
pub(crate) fn tag_of<'a>(bytes: &'a [u8]) -> Option<LangTag<'a>> {
    LangTag::from_bytes(bytes).ok()
}

/// Returns the bytes as a normal tag, or `None` if they are not a normal tag.
#[inline]
pub(crate) fn normal_tag_of<'a>(bytes: &'a [u8]) -> Option<NormalLangTag<'a>> {
    tag_of(bytes)?.as_normal()
}
