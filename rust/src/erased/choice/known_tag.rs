// Generated from crates/langtag_choice/src/known_tag.rt. Do not edit.

//! A tag as the choice reads it.

use crate::erased::choice::prepared_form::PreparedForm;
use crate::erased::cldr::{matching_form, TagFields};

/// A tag as the choice reads it: a string, or a string with what was kept of it. What was kept may
/// be untrue of an entry of a list that is not a tag.
#[derive(Clone, Copy)]
pub(crate) enum KnownTag<'t> {
    Text(&'t [u8]),
    Prepared(&'t [u8], &'t PreparedForm),
}

impl<'t> KnownTag<'t> {
    /// Returns the string of the tag.
    #[inline]
    pub(crate) fn bytes(self) -> &'t [u8] {
        match self {
            KnownTag::Text(text) => text,
            KnownTag::Prepared(text, _) => text,
        }
    }

    /// Returns the matching form of the tag.
    #[inline]
    pub(crate) fn form(self) -> Option<TagFields<'t>> {
        match self {
            KnownTag::Text(text) => matching_form(text),
            KnownTag::Prepared(text, prepared) => prepared_form(text, prepared),
        }
    }

    /// Returns how unlikely the region of the tag is, if this was kept.
    #[inline]
    pub(crate) fn kept_unlikely(self) -> Option<u8> {
        match self {
            KnownTag::Text(_) => None,
            KnownTag::Prepared(_, prepared) => prepared.unlikely(),
        }
    }
}

/// Returns the matching form that was kept of a string, or else computes it.
#[inline]
fn prepared_form<'t>(text: &'t [u8], prepared: &'t PreparedForm) -> Option<TagFields<'t>> {
    match prepared.form() {
        Some(form) => Some(form),
        None => matching_form(text),
    }
}
