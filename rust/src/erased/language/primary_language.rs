// Generated from crates/langtag_language/src/primary_language.rt. Do not edit.

//! The primary language subtag (RFC 5646 section 2.2.1).

use crate::erased::scan::{is_primary, Caseless};
#[cfg(feature = "alloc")]
use crate::shim::{try_string, AllocError};
#[cfg(feature = "alloc")]
use alloc::string::String;
use core::fmt;

/// The error for a string that is not a primary language subtag. It contains the string.
///
/// ```
/// use langtag::PrimaryLanguage;
///
/// let error = PrimaryLanguage::new("f").err();
/// assert_eq!(error.map(|error| error.0), Some("f"));
/// ```
#[derive(Debug, Clone, Copy, PartialEq, Eq, Hash)]
pub struct InvalidPrimaryLanguage<T>(pub T);

impl<T: AsRef<[u8]>> fmt::Display for InvalidPrimaryLanguage<T> {
    #[inline]
    fn fmt(&self, f: &mut fmt::Formatter<'_>) -> fmt::Result {
        f.write_str("invalid primary language")?;
        crate::message::write_text(f, self.0.as_ref())
    }
}

impl<T: fmt::Debug + AsRef<[u8]>> core::error::Error for InvalidPrimaryLanguage<T> {}

/// A primary language subtag ([RFC 5646 section 2.2.1]): two to eight letters, such as `fr`.
///
/// Two primary language subtags are equal if their strings differ only in the case of ASCII
/// letters, such as `fr` and `FR`.
///
/// ```
/// # fn main() -> Result<(), Box<dyn std::error::Error>> {
/// use langtag::PrimaryLanguage;
///
/// let language = PrimaryLanguage::new("fr")?;
/// assert_eq!(language.as_str(), "fr");
/// assert!(language == PrimaryLanguage::new("FR")?);
/// # Ok(())
/// # }
/// ```
///
/// [RFC 5646 section 2.2.1]: https://www.rfc-editor.org/rfc/rfc5646#section-2.2.1
#[derive(Clone, Copy, PartialEq, Eq, PartialOrd, Ord, Hash)]
pub struct PrimaryLanguage<'a> {
    text: Caseless<&'a str>,
}

shown!(PrimaryLanguage<'_>);

impl<'a> PrimaryLanguage<'a> {
    /// Parses a string as a primary language subtag.
    ///
    /// # Errors
    ///
    /// Returns the string if it is not two to eight letters.
    ///
    /// ```
    /// use langtag::{InvalidPrimaryLanguage, PrimaryLanguage};
    ///
    /// assert!(PrimaryLanguage::new("fr").is_ok());
    /// assert_eq!(PrimaryLanguage::new("f"), Err(InvalidPrimaryLanguage("f")));
    /// ```
    #[inline]
    pub fn new(text: &'a str) -> Result<PrimaryLanguage<'a>, InvalidPrimaryLanguage<&'a str>> {
        if !is_primary(text.as_bytes()) {
            return Err(InvalidPrimaryLanguage(text));
        }
        Ok(PrimaryLanguage::from_checked(text))
    }

    /// Wraps a string that is known to be a primary language subtag, without checking it.
    /// `PrimaryLanguage::from_checked(primary.as_str())` is equal to `primary`.
    #[inline]
    pub(crate) const fn from_checked(text: &'a str) -> PrimaryLanguage<'a> {
        PrimaryLanguage {
            text: Caseless(text),
        }
    }

    /// Returns the string, in its original case.
    ///
    /// ```
    /// # fn main() -> Result<(), Box<dyn std::error::Error>> {
    /// use langtag::PrimaryLanguage;
    ///
    /// assert_eq!(PrimaryLanguage::new("FR")?.as_str(), "FR");
    /// # Ok(())
    /// # }
    /// ```
    #[inline]
    #[must_use]
    pub const fn as_str(self) -> &'a str {
        self.text.0
    }

    /// Returns the string as bytes.
    ///
    /// ```
    /// # fn main() -> Result<(), Box<dyn std::error::Error>> {
    /// use langtag::PrimaryLanguage;
    ///
    /// assert_eq!(PrimaryLanguage::new("FR")?.as_bytes(), b"FR");
    /// # Ok(())
    /// # }
    /// ```
    #[inline]
    #[must_use]
    pub const fn as_bytes(self) -> &'a [u8] {
        self.as_str().as_bytes()
    }

    /// Returns whether another string equals this string, ignoring the case of ASCII letters.
    /// Comparisons and hashes also ignore case.
    ///
    /// ```
    /// # fn main() -> Result<(), Box<dyn std::error::Error>> {
    /// use langtag::PrimaryLanguage;
    ///
    /// assert!(PrimaryLanguage::new("fr")?.eq_str("FR"));
    /// # Ok(())
    /// # }
    /// ```
    #[inline]
    #[must_use]
    pub fn eq_str(self, other: &str) -> bool {
        self.text == Caseless(other)
    }

    /// Copies the string into an owned value.
    ///
    /// # Errors
    ///
    /// Returns an error if allocation fails.
    ///
    /// ```
    /// # fn main() -> Result<(), Box<dyn std::error::Error>> {
    /// use langtag::PrimaryLanguage;
    ///
    /// assert_eq!(PrimaryLanguage::new("FR")?.try_to_owned()?.as_str(), "FR");
    /// # Ok(())
    /// # }
    /// ```
    #[cfg(feature = "alloc")]
    #[inline]
    pub fn try_to_owned(self) -> Result<PrimaryLanguageBuf, AllocError> {
        let text = try_string(self.as_str())?;
        Ok(PrimaryLanguageBuf {
            text: Caseless(text),
        })
    }
}

impl fmt::Display for PrimaryLanguage<'_> {
    #[inline]
    fn fmt(&self, f: &mut fmt::Formatter<'_>) -> fmt::Result {
        f.pad(self.as_str())
    }
}

/// A primary language subtag that owns its text.
///
/// ```
/// # fn main() -> Result<(), Box<dyn std::error::Error>> {
/// use langtag::PrimaryLanguage;
///
/// let owned = PrimaryLanguage::new("fr")?.to_owned();
/// assert!(owned.as_primary_language() == PrimaryLanguage::new("FR")?);
/// assert_eq!(owned.into_string().as_str(), "fr");
/// # Ok(())
/// # }
/// ```
#[cfg(feature = "alloc")]
#[derive(PartialEq, Eq, PartialOrd, Ord, Hash)]
pub struct PrimaryLanguageBuf {
    text: Caseless<String>,
}

#[cfg(feature = "alloc")]
shown!(PrimaryLanguageBuf);

#[cfg(feature = "alloc")]
impl PrimaryLanguageBuf {
    /// Parses a `String` as a subtag and keeps it, without copying.
    ///
    /// # Errors
    ///
    /// Returns the same `String` if it is not two to eight letters, such as `f`.
    ///
    /// ```
    /// # fn main() -> Result<(), Box<dyn std::error::Error>> {
    /// use langtag::PrimaryLanguageBuf;
    /// use std::str::FromStr;
    ///
    /// assert_eq!(PrimaryLanguageBuf::new("fr".to_string())?.as_str(), "fr");
    /// assert!(PrimaryLanguageBuf::new("f".to_string()).is_err());
    /// # Ok(())
    /// # }
    /// ```
    #[inline]
    pub fn new(text: String) -> Result<PrimaryLanguageBuf, InvalidPrimaryLanguage<String>> {
        if !is_primary(text.as_bytes()) {
            return Err(InvalidPrimaryLanguage(text));
        }
        Ok(PrimaryLanguageBuf {
            text: Caseless(text),
        })
    }

    /// Borrows the subtag.
    ///
    /// ```
    /// # fn main() -> Result<(), Box<dyn std::error::Error>> {
    /// use langtag::PrimaryLanguage;
    ///
    /// assert_eq!(PrimaryLanguage::new("FR")?.to_owned().as_primary_language().as_str(), "FR");
    /// # Ok(())
    /// # }
    /// ```
    #[inline]
    #[must_use]
    pub fn as_primary_language(&self) -> PrimaryLanguage<'_> {
        PrimaryLanguage::from_checked(self.as_str())
    }

    /// Returns the string, in its original case.
    ///
    /// ```
    /// # fn main() -> Result<(), Box<dyn std::error::Error>> {
    /// use langtag::PrimaryLanguage;
    ///
    /// assert_eq!(PrimaryLanguage::new("FR")?.to_owned().as_str(), "FR");
    /// # Ok(())
    /// # }
    /// ```
    #[inline]
    #[must_use]
    pub fn as_str(&self) -> &str {
        self.text.0.as_str()
    }

    /// Returns the `String`, without copying it.
    ///
    /// ```
    /// # fn main() -> Result<(), Box<dyn std::error::Error>> {
    /// use langtag::PrimaryLanguage;
    ///
    /// assert_eq!(PrimaryLanguage::new("FR")?.to_owned().into_string(), "FR");
    /// # Ok(())
    /// # }
    /// ```
    #[inline]
    #[must_use]
    pub fn into_string(self) -> String {
        self.text.0
    }
}

#[cfg(feature = "alloc")]
impl fmt::Display for PrimaryLanguageBuf {
    #[inline]
    fn fmt(&self, f: &mut fmt::Formatter<'_>) -> fmt::Result {
        f.pad(self.as_str())
    }
}
