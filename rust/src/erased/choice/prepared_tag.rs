// Generated from crates/langtag_choice/src/prepared_tag.rt. Do not edit.

//! A tag with what the choice computes of it.

use crate::erased::choice::prepared_form::PreparedForm;
use crate::erased::tag::LangTag;

/// A tag with what the choice computes of it.
///
/// ```
/// # fn main() -> Result<(), Box<dyn std::error::Error>> {
/// use langtag::erased::tag::LangTag;
/// use langtag::erased::choice::{PreparedTag, Site};
///
/// let prepared = [PreparedTag::new(LangTag::new("en")?), PreparedTag::new(LangTag::new("zh-Hant")?)];
/// assert_eq!(Site::new(&prepared).best_for_header(b"zh-TW"), Some(1));
/// # Ok(())
/// # }
/// ```
#[derive(Clone, Copy)]
pub struct PreparedTag<'t> {
    tag: LangTag<'t>,
    form: PreparedForm,
}

impl<'t> PreparedTag<'t> {
    /// Prepares a tag for many choices.
    #[inline]
    #[must_use]
    pub fn new(tag: LangTag<'t>) -> PreparedTag<'t> {
        PreparedTag {
            tag,
            form: PreparedForm::of(tag.as_bytes()),
        }
    }

    /// Returns the tag.
    #[inline]
    #[must_use]
    pub fn tag(&self) -> LangTag<'t> {
        self.tag
    }

    /// Returns what the choice computes of the tag.
    #[inline]
    #[must_use]
    pub fn form(&self) -> &PreparedForm {
        &self.form
    }
}
