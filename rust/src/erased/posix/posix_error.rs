// Generated from crates/langtag_posix/src/posix_error.rt. Do not edit.

//! Why a POSIX locale name has no tag.

use crate::shim::AllocError;
use alloc::string::String;
use core::fmt;

/// The error for a POSIX locale name: why it has no tag.
///
/// ```
/// use langtag::likely::{PosixError, from_posix};
///
/// assert!(matches!(from_posix("POSIX"), Err(PosixError::NoTag(name)) if name == "POSIX"));
/// ```
#[derive(Debug, Clone, PartialEq, Eq, Hash)]
#[non_exhaustive]
pub enum PosixError {
    /// The name, which gives no tag: `C`, `POSIX`, the empty string, or a string that is not a tag,
    /// such as `en_` and `No. 5`.
    NoTag(String),
    /// Allocation failed.
    Memory(AllocError),
}

impl fmt::Display for PosixError {
    fn fmt(&self, f: &mut fmt::Formatter<'_>) -> fmt::Result {
        match self {
            PosixError::NoTag(value) => write!(
                f,
                "no language in the locale name {}",
                crate::message::Quoted(value.as_bytes())
            ),
            PosixError::Memory(_) => f.write_str("out of memory"),
        }
    }
}

impl core::error::Error for PosixError {}

impl From<AllocError> for PosixError {
    #[inline]
    fn from(error: AllocError) -> Self {
        PosixError::Memory(error)
    }
}
