// Generated from crates/langtag_choice/src/owned_site.rt. Do not edit.

//! A site that owns what it prepared.

use crate::erased::choice::prepared_tag::PreparedTag;
use crate::erased::choice::site::Site;
use crate::erased::tag::LangTag;
use crate::shim::{AllocError, TryItems};
use alloc::vec::Vec;

/// A [`Site`] that owns its prepared tags.
///
/// ```
/// # fn main() -> Result<(), Box<dyn std::error::Error>> {
/// use langtag::erased::tag::LangTag;
/// use langtag::erased::choice::OwnedSite;
///
/// let tags = [LangTag::new("en")?, LangTag::new("zh-Hant")?];
/// let site = OwnedSite::new(&tags)?;
/// assert_eq!(site.as_site().best_for_header(b"zh-TW,zh;q=0.9"), Some(1));
/// # Ok(())
/// # }
/// ```
pub struct OwnedSite<'t> {
    tags: Vec<PreparedTag<'t>>,
}

impl<'t> OwnedSite<'t> {
    /// Prepares tags.
    ///
    /// # Errors
    ///
    /// Returns an error if allocation fails.
    pub fn new(tags: &[LangTag<'t>]) -> Result<OwnedSite<'t>, AllocError> {
        let mut prepared = Vec::new();
        for tag in tags {
            prepared
                .try_push(PreparedTag::new(*tag))
                .map_err(AllocError::from)?;
        }
        Ok(OwnedSite { tags: prepared })
    }

    /// Returns the site.
    #[inline]
    #[must_use]
    pub fn as_site(&self) -> Site<'_, 't> {
        Site::new(self.tags.as_slice())
    }
}
