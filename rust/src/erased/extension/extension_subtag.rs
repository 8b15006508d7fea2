// Generated from crates/langtag_extension/src/extension_subtag.rt. Do not edit.

//! A subtag of an extension (RFC 5646 section 2.2.6).

use crate::erased::scan::{is_extension_subtag, Caseless};
#[cfg(feature = "alloc")]
use crate::shim::{try_string, AllocError};
#[cfg(feature = "alloc")]
use alloc::string::String;
use core::fmt;

/// The error for a string that is not a subtag of an extension. It contains the string.
///
/// ```
/// use langtag::ExtensionSubtag;
///
/// let error = ExtensionSubtag::new("c").err();
/// assert_eq!(error.map(|error| error.0), Some("c"));
/// ```
#[derive(Debug, Clone, Copy, PartialEq, Eq, Hash)]
pub struct InvalidExtensionSubtag<T>(pub T);

impl<T: AsRef<[u8]>> fmt::Display for InvalidExtensionSubtag<T> {
    #[inline]
    fn fmt(&self, f: &mut fmt::Formatter<'_>) -> fmt::Result {
        f.write_str("invalid extension subtag")?;
        crate::message::write_text(f, self.0.as_ref())
    }
}

impl<T: fmt::Debug + AsRef<[u8]>> core::error::Error for InvalidExtensionSubtag<T> {}

/// A subtag of an extension ([RFC 5646 section 2.2.6]): two to eight letters and digits, such as
/// `phonebk` in `u-co-phonebk`.
///
/// Two subtags are equal if their strings differ only in the case of ASCII letters, such as `co`
/// and `CO`.
///
/// ```
/// # fn main() -> Result<(), Box<dyn std::error::Error>> {
/// use langtag::ExtensionSubtag;
///
/// let subtag = ExtensionSubtag::new("co")?;
/// assert_eq!(subtag.as_str(), "co");
/// assert!(subtag == ExtensionSubtag::new("CO")?);
/// # Ok(())
/// # }
/// ```
///
/// [RFC 5646 section 2.2.6]: https://www.rfc-editor.org/rfc/rfc5646#section-2.2.6
#[derive(Clone, Copy, PartialEq, Eq, PartialOrd, Ord, Hash)]
pub struct ExtensionSubtag<'a> {
    text: Caseless<&'a str>,
}

shown!(ExtensionSubtag<'_>);

impl<'a> ExtensionSubtag<'a> {
    /// Parses a string as a subtag.
    ///
    /// # Errors
    ///
    /// Returns the string if it is not two to eight letters and digits.
    ///
    /// ```
    /// use langtag::{ExtensionSubtag, InvalidExtensionSubtag};
    ///
    /// assert!(ExtensionSubtag::new("co").is_ok());
    /// assert_eq!(ExtensionSubtag::new("c"), Err(InvalidExtensionSubtag("c")));
    /// ```
    #[inline]
    pub fn new(text: &'a str) -> Result<ExtensionSubtag<'a>, InvalidExtensionSubtag<&'a str>> {
        if !is_extension_subtag(text.as_bytes()) {
            return Err(InvalidExtensionSubtag(text));
        }
        Ok(ExtensionSubtag::from_checked(text))
    }

    /// Wraps a string that is known to be a subtag of an extension, without checking it.
    /// `ExtensionSubtag::from_checked(subtag.as_str())` is equal to `subtag`.
    #[inline]
    pub(crate) fn from_checked(text: &'a str) -> ExtensionSubtag<'a> {
        ExtensionSubtag {
            text: Caseless(text),
        }
    }

    /// Returns the string, in its original case.
    ///
    /// ```
    /// # fn main() -> Result<(), Box<dyn std::error::Error>> {
    /// use langtag::ExtensionSubtag;
    ///
    /// assert_eq!(ExtensionSubtag::new("CO")?.as_str(), "CO");
    /// # Ok(())
    /// # }
    /// ```
    #[inline]
    #[must_use]
    pub const fn as_str(self) -> &'a str {
        self.text.0
    }

    /// Returns the string as bytes.
    ///
    /// ```
    /// # fn main() -> Result<(), Box<dyn std::error::Error>> {
    /// use langtag::ExtensionSubtag;
    ///
    /// assert_eq!(ExtensionSubtag::new("CO")?.as_bytes(), b"CO");
    /// # Ok(())
    /// # }
    /// ```
    #[inline]
    #[must_use]
    pub const fn as_bytes(self) -> &'a [u8] {
        self.as_str().as_bytes()
    }

    /// Returns whether another string equals this string, ignoring the case of ASCII letters.
    /// Comparisons and hashes also ignore case.
    ///
    /// ```
    /// # fn main() -> Result<(), Box<dyn std::error::Error>> {
    /// use langtag::ExtensionSubtag;
    ///
    /// assert!(ExtensionSubtag::new("co")?.eq_str("CO"));
    /// # Ok(())
    /// # }
    /// ```
    #[inline]
    #[must_use]
    pub fn eq_str(self, other: &str) -> bool {
        self.text == Caseless(other)
    }

    /// Copies the string into an owned value.
    ///
    /// # Errors
    ///
    /// Returns an error if allocation fails.
    ///
    /// ```
    /// # fn main() -> Result<(), Box<dyn std::error::Error>> {
    /// use langtag::ExtensionSubtag;
    ///
    /// assert_eq!(ExtensionSubtag::new("CO")?.try_to_owned()?.as_str(), "CO");
    /// # Ok(())
    /// # }
    /// ```
    #[cfg(feature = "alloc")]
    #[inline]
    pub fn try_to_owned(self) -> Result<ExtensionSubtagBuf, AllocError> {
        let text = try_string(self.as_str())?;
        Ok(ExtensionSubtagBuf {
            text: Caseless(text),
        })
    }
}

impl fmt::Display for ExtensionSubtag<'_> {
    #[inline]
    fn fmt(&self, f: &mut fmt::Formatter<'_>) -> fmt::Result {
        f.pad(self.as_str())
    }
}

/// A subtag of an extension that owns its text.
///
/// ```
/// # fn main() -> Result<(), Box<dyn std::error::Error>> {
/// use langtag::ExtensionSubtag;
///
/// let owned = ExtensionSubtag::new("co")?.to_owned();
/// assert!(owned.as_extension_subtag() == ExtensionSubtag::new("CO")?);
/// assert_eq!(owned.into_string().as_str(), "co");
/// # Ok(())
/// # }
/// ```
#[cfg(feature = "alloc")]
#[derive(PartialEq, Eq, PartialOrd, Ord, Hash)]
pub struct ExtensionSubtagBuf {
    text: Caseless<String>,
}

#[cfg(feature = "alloc")]
shown!(ExtensionSubtagBuf);

#[cfg(feature = "alloc")]
impl ExtensionSubtagBuf {
    /// Parses a `String` as a subtag and keeps it, without copying.
    ///
    /// # Errors
    ///
    /// Returns the same `String` if it is not two to eight letters and digits, such as `c`.
    ///
    /// ```
    /// # fn main() -> Result<(), Box<dyn std::error::Error>> {
    /// use langtag::ExtensionSubtagBuf;
    /// use std::str::FromStr;
    ///
    /// assert_eq!(ExtensionSubtagBuf::new("co".to_string())?.as_str(), "co");
    /// assert!(ExtensionSubtagBuf::new("c".to_string()).is_err());
    /// # Ok(())
    /// # }
    /// ```
    #[inline]
    pub fn new(text: String) -> Result<ExtensionSubtagBuf, InvalidExtensionSubtag<String>> {
        if !is_extension_subtag(text.as_bytes()) {
            return Err(InvalidExtensionSubtag(text));
        }
        Ok(ExtensionSubtagBuf {
            text: Caseless(text),
        })
    }

    /// Borrows the subtag.
    ///
    /// ```
    /// # fn main() -> Result<(), Box<dyn std::error::Error>> {
    /// use langtag::ExtensionSubtag;
    ///
    /// assert_eq!(ExtensionSubtag::new("CO")?.to_owned().as_extension_subtag().as_str(), "CO");
    /// # Ok(())
    /// # }
    /// ```
    #[inline]
    #[must_use]
    pub fn as_extension_subtag(&self) -> ExtensionSubtag<'_> {
        ExtensionSubtag::from_checked(self.as_str())
    }

    /// Returns the string, in its original case.
    ///
    /// ```
    /// # fn main() -> Result<(), Box<dyn std::error::Error>> {
    /// use langtag::ExtensionSubtag;
    ///
    /// assert_eq!(ExtensionSubtag::new("CO")?.to_owned().as_str(), "CO");
    /// # Ok(())
    /// # }
    /// ```
    #[inline]
    #[must_use]
    pub fn as_str(&self) -> &str {
        self.text.0.as_str()
    }

    /// Returns the `String`, without copying it.
    ///
    /// ```
    /// # fn main() -> Result<(), Box<dyn std::error::Error>> {
    /// use langtag::ExtensionSubtag;
    ///
    /// assert_eq!(ExtensionSubtag::new("CO")?.to_owned().into_string(), "CO");
    /// # Ok(())
    /// # }
    /// ```
    #[inline]
    #[must_use]
    pub fn into_string(self) -> String {
        self.text.0
    }
}

#[cfg(feature = "alloc")]
impl fmt::Display for ExtensionSubtagBuf {
    #[inline]
    fn fmt(&self, f: &mut fmt::Formatter<'_>) -> fmt::Result {
        f.pad(self.as_str())
    }
}
