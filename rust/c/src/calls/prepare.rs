// Generated from crates/langtag_c/src/prepare.rt. Do not edit.

//! Tags that are prepared for many choices. What is prepared is plain bytes, which the library
//! checks before it returns the tag. So the caller's array may come from a file, and a tag that was
//! not prepared for its span is never chosen.

use crate::calls::span::Span;
use crate::calls::spanned::{bytes_in, tag_in};
use crate::erased::choice::{PreparedForm, TagList};
use crate::erased::tag::LangTag;

/// A tag of a site, with what a choice computes of it. It is plain data without pointers: it may be
/// copied, stored, and shared by threads. Set `tag`, and let `langtag_prepare` write the rest.
#[repr(C)]
#[derive(Clone, Copy)]
pub struct PreparedTag {
    /// in the string of the site
    pub tag: Span,
    pub form: PreparedForm,
}

/// Prepares a tag for many choices. The caller sets `tag->tag`, a span of the string.
///
/// ```c
/// const char *have = "en zh-Hans zh-Hant";
/// langtag_prepared_tag site[] = {{{0, 2}, {0}}, {{3, 7}, {0}}, {{11, 7}, {0}}};
/// for (size_t i = 0; i < 3; i++)
///     langtag_prepare(have, strlen(have), &site[i]);
/// const char *header = "zh-TW,zh;q=0.9,en;q=0.8";
/// size_t best = langtag_site_best_for_header(header, strlen(header), have, strlen(have), site, 3);
/// assert_eq!(printf("%zu\n", best), 2);
/// ```
///
/// Prepare the tags again if the string changes, or the version of the library. A span that is not
/// a tag, or reaches beyond the string, is never chosen.
#[inline]
pub fn langtag_prepare(bytes: &[u8], tag: &mut PreparedTag) {
    tag.form = PreparedForm::of(bytes_in(bytes, tag.tag));
}

impl PreparedTag {
    /// Returns the tag, or `None` if the span is not a tag, or if this was not prepared for it.
    fn current_in<'a>(&self, text: &'a [u8]) -> Option<LangTag<'a>> {
        let Some(tag) = tag_in(text, self.tag) else {
            return None;
        };
        if self.form.is_for(tag.as_bytes()) {
            Some(tag)
        } else {
            None
        }
    }
}

/// A string, and tags in it that were prepared. A tag is left out if it was not prepared for its
/// span in this string.
#[derive(Clone, Copy)]
pub(crate) struct PreparedTags<'a> {
    pub(crate) text: &'a [u8],
    pub(crate) tags: &'a [PreparedTag],
}

impl TagList for PreparedTags<'_> {
    #[inline]
    fn count(&self) -> usize {
        self.tags.len()
    }

    #[inline]
    fn tag_at(&self, index: usize) -> Option<LangTag<'_>> {
        self.tags[index].current_in(self.text)
    }

    #[inline]
    fn bytes_at(&self, index: usize) -> &[u8] {
        bytes_in(self.text, self.tags[index].tag)
    }

    #[inline]
    fn form_at(&self, index: usize) -> Option<&PreparedForm> {
        Some(&self.tags[index].form)
    }
}
