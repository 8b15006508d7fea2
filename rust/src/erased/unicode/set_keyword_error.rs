// Generated from crates/langtag_unicode/src/set_keyword_error.rt. Do not edit.

//! Why a keyword of an owned tag could not be set.

use crate::erased::keyword::KeywordError;
use crate::shim::AllocError;
use core::fmt;

/// The error of [`set_keyword`](crate::erased::unicode::set_keyword) and
/// [`remove_keyword`](crate::erased::unicode::remove_keyword): why a keyword was neither set nor
/// removed. The tag is unchanged.
///
/// ```
/// # fn main() -> Result<(), Box<dyn std::error::Error>> {
/// use langtag::erased::tag::LangTag;
/// use langtag::erased::unicode::{KeywordError, SetKeywordError, set_keyword};
///
/// let mut tag = LangTag::new("x-a")?.to_owned();
/// assert_eq!(
///     set_keyword(&mut tag, "ca", "roc"),
///     Err(SetKeywordError::Keyword(KeywordError::NotNormal))
/// );
/// # Ok(())
/// # }
/// ```
#[derive(Clone, Copy, Debug, PartialEq, Eq, Hash)]
#[non_exhaustive]
pub enum SetKeywordError {
    /// The key or the value cannot be in a keyword, or the tag is not normal.
    Keyword(KeywordError),
    /// Allocation failed.
    Memory(AllocError),
}

impl fmt::Display for SetKeywordError {
    #[inline]
    fn fmt(&self, f: &mut fmt::Formatter<'_>) -> fmt::Result {
        match self {
            SetKeywordError::Keyword(value) => value.fmt(f),
            SetKeywordError::Memory(_) => f.write_str("out of memory"),
        }
    }
}

impl core::error::Error for SetKeywordError {}

impl From<AllocError> for SetKeywordError {
    #[inline]
    fn from(error: AllocError) -> Self {
        SetKeywordError::Memory(error)
    }
}
