// Generated from crates/langtag_choice/src/tag_list.rt. Do not edit.

//! The lists of tags from which one can be chosen.

use crate::erased::choice::prepared_form::PreparedForm;
use crate::erased::tag::LangTag;

/// A list of tags with an index for each. An entry that is not a tag is allowed, but never chosen.
///
/// ```
/// use langtag::LangTag;
/// use langtag::choice::{best_for_ranges, TagList};
///
/// struct Texts(&'static [&'static str]);
///
/// impl TagList for Texts {
///     fn count(&self) -> usize {
///         self.0.len()
///     }
///
///     fn tag_at(&self, index: usize) -> Option<LangTag<'_>> {
///         LangTag::new(self.0[index]).ok()
///     }
///
///     fn bytes_at(&self, index: usize) -> &[u8] {
///         self.0[index].as_bytes()
///     }
/// }
///
/// assert_eq!(best_for_ranges(&["zh-TW"], &Texts(&["en", "zh-Hant"])), Some(1));
/// ```
pub trait TagList {
    /// Returns the number of entries.
    fn count(&self) -> usize;

    /// Returns the tag at an index, or `None` if the entry is not a tag.
    fn tag_at(&self, index: usize) -> Option<LangTag<'_>>;

    /// Returns the string of the tag at an index. If the entry is not a tag, any string may be
    /// returned.
    fn bytes_at(&self, index: usize) -> &[u8];

    /// Returns what was prepared of the tag at an index, or `None`. If the entry is not a tag, this
    /// may be untrue of it. Override this only for prepared tags.
    #[inline]
    fn form_at(&self, _index: usize) -> Option<&PreparedForm> {
        None
    }
}

/// Tags in a slice.
#[derive(Clone, Copy)]
pub(crate) struct Tags<'a, 't>(pub(crate) &'a [LangTag<'t>]);

impl TagList for Tags<'_, '_> {
    #[inline]
    fn count(&self) -> usize {
        self.0.len()
    }

    #[inline]
    fn tag_at(&self, index: usize) -> Option<LangTag<'_>> {
        Some(self.0[index])
    }

    #[inline]
    fn bytes_at(&self, index: usize) -> &[u8] {
        self.0[index].as_bytes()
    }
}
