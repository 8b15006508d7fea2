// Generated from crates/langtag_text/src/edit_error.rt. Do not edit.

//! Why a tag could not be edited.

use crate::shim::AllocError;
use core::fmt;

/// The error of a setter: why the part was neither set nor removed. The tag is unchanged.
///
/// ```
/// # fn main() -> Result<(), Box<dyn std::error::Error>> {
/// use langtag::{EditError, LangTag};
///
/// let mut tag = LangTag::new("x-a")?.to_owned();
/// assert_eq!(tag.set_script(None), Err(EditError::NotNormal));
/// # Ok(())
/// # }
/// ```
#[derive(Clone, Copy, Debug, PartialEq, Eq, Hash)]
#[non_exhaustive]
pub enum EditError {
    /// The tag is not a normal tag, so it has no parts: `x-a` and `i-klingon`, for example (RFC
    /// 5646 section 2.1).
    NotNormal,
    /// Allocation failed.
    Memory(AllocError),
}

impl fmt::Display for EditError {
    #[inline]
    fn fmt(&self, f: &mut fmt::Formatter<'_>) -> fmt::Result {
        match self {
            EditError::NotNormal => f.write_str("not a normal language tag"),
            EditError::Memory(_) => f.write_str("out of memory"),
        }
    }
}

impl core::error::Error for EditError {}

impl From<AllocError> for EditError {
    #[inline]
    fn from(error: AllocError) -> Self {
        EditError::Memory(error)
    }
}
