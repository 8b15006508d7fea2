// Generated from crates/langtag_private/src/private_use_subtag.rt. Do not edit.

//! A subtag of a private use part (RFC 5646 section 2.2.7).

use crate::erased::scan::{is_private_subtag, Caseless};
#[cfg(feature = "alloc")]
use crate::shim::{try_string, AllocError};
#[cfg(feature = "alloc")]
use alloc::string::String;
use core::fmt;

/// The error for a string that is not a private use subtag. It contains the string.
///
/// ```
/// use langtag::PrivateUseSubtag;
///
/// let error = PrivateUseSubtag::new("").err();
/// assert_eq!(error.map(|error| error.0), Some(""));
/// ```
#[derive(Debug, Clone, Copy, PartialEq, Eq, Hash)]
pub struct InvalidPrivateUseSubtag<T>(pub T);

impl<T: AsRef<[u8]>> fmt::Display for InvalidPrivateUseSubtag<T> {
    #[inline]
    fn fmt(&self, f: &mut fmt::Formatter<'_>) -> fmt::Result {
        f.write_str("invalid private use subtag")?;
        crate::message::write_text(f, self.0.as_ref())
    }
}

impl<T: fmt::Debug + AsRef<[u8]>> core::error::Error for InvalidPrivateUseSubtag<T> {}

/// A private use subtag ([RFC 5646 section 2.2.7]): one to eight letters and digits, such as
/// `twain` in `en-x-twain`.
///
/// Two private use subtags are equal if their strings differ only in the case of ASCII letters,
/// such as `twain` and `TWAIN`.
///
/// ```
/// # fn main() -> Result<(), Box<dyn std::error::Error>> {
/// use langtag::PrivateUseSubtag;
///
/// let subtag = PrivateUseSubtag::new("twain")?;
/// assert_eq!(subtag.as_str(), "twain");
/// assert!(subtag == PrivateUseSubtag::new("TWAIN")?);
/// # Ok(())
/// # }
/// ```
///
/// [RFC 5646 section 2.2.7]: https://www.rfc-editor.org/rfc/rfc5646#section-2.2.7
#[derive(Clone, Copy, PartialEq, Eq, PartialOrd, Ord, Hash)]
pub struct PrivateUseSubtag<'a> {
    text: Caseless<&'a str>,
}

shown!(PrivateUseSubtag<'_>);

impl<'a> PrivateUseSubtag<'a> {
    /// Parses a string as a private use subtag.
    ///
    /// # Errors
    ///
    /// Returns the string if it is not one to eight letters and digits.
    ///
    /// ```
    /// use langtag::{InvalidPrivateUseSubtag, PrivateUseSubtag};
    ///
    /// assert!(PrivateUseSubtag::new("twain").is_ok());
    /// assert_eq!(PrivateUseSubtag::new("a-b"), Err(InvalidPrivateUseSubtag("a-b")));
    /// ```
    #[inline]
    pub fn new(text: &'a str) -> Result<PrivateUseSubtag<'a>, InvalidPrivateUseSubtag<&'a str>> {
        if !is_private_subtag(text.as_bytes()) {
            return Err(InvalidPrivateUseSubtag(text));
        }
        Ok(PrivateUseSubtag::from_checked(text))
    }

    /// Wraps a string that is known to be a private use subtag, without checking it.
    /// `PrivateUseSubtag::from_checked(subtag.as_str())` is equal to `subtag`.
    #[inline]
    pub(crate) fn from_checked(text: &'a str) -> PrivateUseSubtag<'a> {
        PrivateUseSubtag {
            text: Caseless(text),
        }
    }

    /// Returns the string, in its original case.
    ///
    /// ```
    /// # fn main() -> Result<(), Box<dyn std::error::Error>> {
    /// use langtag::PrivateUseSubtag;
    ///
    /// assert_eq!(PrivateUseSubtag::new("TWAIN")?.as_str(), "TWAIN");
    /// # Ok(())
    /// # }
    /// ```
    #[inline]
    #[must_use]
    pub const fn as_str(self) -> &'a str {
        self.text.0
    }

    /// Returns the string as bytes.
    ///
    /// ```
    /// # fn main() -> Result<(), Box<dyn std::error::Error>> {
    /// use langtag::PrivateUseSubtag;
    ///
    /// assert_eq!(PrivateUseSubtag::new("TWAIN")?.as_bytes(), b"TWAIN");
    /// # Ok(())
    /// # }
    /// ```
    #[inline]
    #[must_use]
    pub const fn as_bytes(self) -> &'a [u8] {
        self.as_str().as_bytes()
    }

    /// Returns whether another string equals this string, ignoring the case of ASCII letters.
    /// Comparisons and hashes also ignore case.
    ///
    /// ```
    /// # fn main() -> Result<(), Box<dyn std::error::Error>> {
    /// use langtag::PrivateUseSubtag;
    ///
    /// assert!(PrivateUseSubtag::new("twain")?.eq_str("TWAIN"));
    /// # Ok(())
    /// # }
    /// ```
    #[inline]
    #[must_use]
    pub fn eq_str(self, other: &str) -> bool {
        self.text == Caseless(other)
    }

    /// Copies the string into an owned value.
    ///
    /// # Errors
    ///
    /// Returns an error if allocation fails.
    ///
    /// ```
    /// # fn main() -> Result<(), Box<dyn std::error::Error>> {
    /// use langtag::PrivateUseSubtag;
    ///
    /// assert_eq!(PrivateUseSubtag::new("TWAIN")?.try_to_owned()?.as_str(), "TWAIN");
    /// # Ok(())
    /// # }
    /// ```
    #[cfg(feature = "alloc")]
    #[inline]
    pub fn try_to_owned(self) -> Result<PrivateUseSubtagBuf, AllocError> {
        let text = try_string(self.as_str())?;
        Ok(PrivateUseSubtagBuf {
            text: Caseless(text),
        })
    }
}

impl fmt::Display for PrivateUseSubtag<'_> {
    #[inline]
    fn fmt(&self, f: &mut fmt::Formatter<'_>) -> fmt::Result {
        f.pad(self.as_str())
    }
}

/// A private use subtag that owns its text.
///
/// ```
/// # fn main() -> Result<(), Box<dyn std::error::Error>> {
/// use langtag::PrivateUseSubtag;
///
/// let owned = PrivateUseSubtag::new("twain")?.to_owned();
/// assert!(owned.as_private_use_subtag() == PrivateUseSubtag::new("TWAIN")?);
/// assert_eq!(owned.into_string().as_str(), "twain");
/// # Ok(())
/// # }
/// ```
#[cfg(feature = "alloc")]
#[derive(PartialEq, Eq, PartialOrd, Ord, Hash)]
pub struct PrivateUseSubtagBuf {
    text: Caseless<String>,
}

#[cfg(feature = "alloc")]
shown!(PrivateUseSubtagBuf);

#[cfg(feature = "alloc")]
impl PrivateUseSubtagBuf {
    /// Parses a `String` as a subtag and keeps it, without copying.
    ///
    /// # Errors
    ///
    /// Returns the same `String` if it is not one to eight letters and digits, such as `a-b`.
    ///
    /// ```
    /// # fn main() -> Result<(), Box<dyn std::error::Error>> {
    /// use langtag::PrivateUseSubtagBuf;
    /// use std::str::FromStr;
    ///
    /// assert_eq!(PrivateUseSubtagBuf::new("twain".to_string())?.as_str(), "twain");
    /// assert!(PrivateUseSubtagBuf::new("a-b".to_string()).is_err());
    /// # Ok(())
    /// # }
    /// ```
    #[inline]
    pub fn new(text: String) -> Result<PrivateUseSubtagBuf, InvalidPrivateUseSubtag<String>> {
        if !is_private_subtag(text.as_bytes()) {
            return Err(InvalidPrivateUseSubtag(text));
        }
        Ok(PrivateUseSubtagBuf {
            text: Caseless(text),
        })
    }

    /// Borrows the subtag.
    ///
    /// ```
    /// # fn main() -> Result<(), Box<dyn std::error::Error>> {
    /// use langtag::PrivateUseSubtag;
    ///
    /// assert_eq!(
    ///     PrivateUseSubtag::new("TWAIN")?.to_owned().as_private_use_subtag().as_str(),
    ///     "TWAIN"
    /// );
    /// # Ok(())
    /// # }
    /// ```
    #[inline]
    #[must_use]
    pub fn as_private_use_subtag(&self) -> PrivateUseSubtag<'_> {
        PrivateUseSubtag::from_checked(self.as_str())
    }

    /// Returns the string, in its original case.
    ///
    /// ```
    /// # fn main() -> Result<(), Box<dyn std::error::Error>> {
    /// use langtag::PrivateUseSubtag;
    ///
    /// assert_eq!(PrivateUseSubtag::new("TWAIN")?.to_owned().as_str(), "TWAIN");
    /// # Ok(())
    /// # }
    /// ```
    #[inline]
    #[must_use]
    pub fn as_str(&self) -> &str {
        self.text.0.as_str()
    }

    /// Returns the `String`, without copying it.
    ///
    /// ```
    /// # fn main() -> Result<(), Box<dyn std::error::Error>> {
    /// use langtag::PrivateUseSubtag;
    ///
    /// assert_eq!(PrivateUseSubtag::new("TWAIN")?.to_owned().into_string(), "TWAIN");
    /// # Ok(())
    /// # }
    /// ```
    #[inline]
    #[must_use]
    pub fn into_string(self) -> String {
        self.text.0
    }
}

#[cfg(feature = "alloc")]
impl fmt::Display for PrivateUseSubtagBuf {
    #[inline]
    fn fmt(&self, f: &mut fmt::Formatter<'_>) -> fmt::Result {
        f.pad(self.as_str())
    }
}
