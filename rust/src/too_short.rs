//! The error of a buffer that is too short.
use core::fmt;

/// The error of a call that writes to a buffer, if the buffer is too short. It contains the length
/// that the result needs. The buffer is unchanged, but after `unicode::write_extensions_form`,
/// `unicode::write_locale_form` and `choice::write_resolved_locale` its bytes are unspecified.
///
#[cfg_attr(feature = "data", doc = "```")]
#[cfg_attr(not(feature = "data"), doc = "```ignore")]
/// use langtag::registry::write_canonical;
/// use langtag::LangTag;
///
/// let error = write_canonical(LangTag::new("iw-IL")?, &mut [0; 3]).unwrap_err();
/// assert_eq!(error.needed(), 5);
/// assert_eq!(error.to_string(), "buffer is too short: a length of 5 is needed");
/// # Ok::<(), Box<dyn std::error::Error>>(())
/// ```
#[derive(Clone, Copy, Debug, PartialEq, Eq, Hash)]
pub struct TooShort {
    needed: usize,
}

impl TooShort {
    #[cfg(feature = "data")]
    pub(crate) fn of(needed: usize) -> TooShort {
        TooShort { needed }
    }

    /// Returns the number of bytes that the result needs.
    #[must_use]
    #[inline]
    pub fn needed(self) -> usize {
        self.needed
    }
}

impl fmt::Display for TooShort {
    #[inline]
    fn fmt(&self, f: &mut fmt::Formatter<'_>) -> fmt::Result {
        write!(
            f,
            "buffer is too short: a length of {} is needed",
            self.needed
        )
    }
}

impl core::error::Error for TooShort {}

/// Returns what was written to a buffer, if it has room for it. `len` is the length of the result,
/// whether it was written or not.
#[cfg(feature = "data")]
#[inline]
pub(crate) fn written(buffer: &[u8], len: usize) -> Result<&str, TooShort> {
    let bytes = buffer.get(..len).ok_or(TooShort { needed: len })?;
    // Each form of a tag is ASCII.
    Ok(core::str::from_utf8(bytes).unwrap_or_default())
}

/// Returns what was written to a buffer, as [`written`] does, or `None` if there is no result.
#[cfg(feature = "data")]
#[inline]
pub(crate) fn written_if_any(buffer: &[u8], len: Option<usize>) -> Result<Option<&str>, TooShort> {
    len.map(|len| written(buffer, len)).transpose()
}
