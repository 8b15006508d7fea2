// Generated from crates/langtag_language/src/language_extension.rt. Do not edit.

//! The extended subtags of a language as one string (RFC 5646 section 2.2.2).

use crate::erased::language::extended_subtags::are_extended_within;
use crate::erased::language::language_extension_iter::LanguageExtensionIter;
use crate::erased::scan::{Caseless, Subtags};
#[cfg(feature = "alloc")]
use crate::shim::{try_string, AllocError};
#[cfg(feature = "alloc")]
use alloc::string::String;
use core::fmt;

/// The error for a string that is not a language extension. It contains the string.
///
/// ```
/// use langtag::LanguageExtension;
///
/// let error = LanguageExtension::new("min-").err();
/// assert_eq!(error.map(|error| error.0), Some("min-"));
/// ```
#[derive(Debug, Clone, Copy, PartialEq, Eq, Hash)]
pub struct InvalidLanguageExtension<T>(pub T);

impl<T: AsRef<[u8]>> fmt::Display for InvalidLanguageExtension<T> {
    #[inline]
    fn fmt(&self, f: &mut fmt::Formatter<'_>) -> fmt::Result {
        f.write_str("invalid language extension")?;
        crate::message::write_text(f, self.0.as_ref())
    }
}

impl<T: fmt::Debug + AsRef<[u8]>> core::error::Error for InvalidLanguageExtension<T> {}

/// The extended subtags of a language ([RFC 5646 section 2.2.2]): one to three, joined by hyphens,
/// such as `min-nan`.
///
/// Two language extensions are equal if their strings differ only in the case of ASCII letters,
/// such as `min-nan` and `MIN-NAN`.
///
/// ```
/// # fn main() -> Result<(), Box<dyn std::error::Error>> {
/// use langtag::LanguageExtension;
///
/// let extension = LanguageExtension::new("min-nan")?;
/// assert_eq!(extension.as_str(), "min-nan");
/// assert!(extension == LanguageExtension::new("MIN-NAN")?);
/// # Ok(())
/// # }
/// ```
///
/// [RFC 5646 section 2.2.2]: https://www.rfc-editor.org/rfc/rfc5646#section-2.2.2
#[derive(Clone, Copy, PartialEq, Eq, PartialOrd, Ord, Hash)]
pub struct LanguageExtension<'a> {
    text: Caseless<&'a str>,
}

shown!(LanguageExtension<'_>);

impl<'a> LanguageExtension<'a> {
    /// Parses a string as a language extension.
    ///
    /// # Errors
    ///
    /// Returns the string if it is not one to three extended subtags joined by hyphens.
    ///
    /// ```
    /// use langtag::{InvalidLanguageExtension, LanguageExtension};
    ///
    /// assert!(LanguageExtension::new("min-nan").is_ok());
    /// assert_eq!(LanguageExtension::new("min-"), Err(InvalidLanguageExtension("min-")));
    /// ```
    #[inline]
    pub fn new(text: &'a str) -> Result<LanguageExtension<'a>, InvalidLanguageExtension<&'a str>> {
        if !is_language_extension(text) {
            return Err(InvalidLanguageExtension(text));
        }
        Ok(LanguageExtension::from_checked(text))
    }

    /// Wraps a string that is known to be a language extension, without checking it.
    /// `LanguageExtension::from_checked(extension.as_str())` is equal to `extension`.
    #[inline]
    pub(crate) fn from_checked(text: &'a str) -> LanguageExtension<'a> {
        LanguageExtension {
            text: Caseless(text),
        }
    }

    /// Returns the string, in its original case.
    ///
    /// ```
    /// # fn main() -> Result<(), Box<dyn std::error::Error>> {
    /// use langtag::LanguageExtension;
    ///
    /// assert_eq!(LanguageExtension::new("MIN-NAN")?.as_str(), "MIN-NAN");
    /// # Ok(())
    /// # }
    /// ```
    #[inline]
    #[must_use]
    pub const fn as_str(self) -> &'a str {
        self.text.0
    }

    /// Returns the string as bytes.
    ///
    /// ```
    /// # fn main() -> Result<(), Box<dyn std::error::Error>> {
    /// use langtag::LanguageExtension;
    ///
    /// assert_eq!(LanguageExtension::new("MIN-NAN")?.as_bytes(), b"MIN-NAN");
    /// # Ok(())
    /// # }
    /// ```
    #[inline]
    #[must_use]
    pub const fn as_bytes(self) -> &'a [u8] {
        self.as_str().as_bytes()
    }

    /// Returns whether another string equals this string, ignoring the case of ASCII letters.
    /// Comparisons and hashes also ignore case.
    ///
    /// ```
    /// # fn main() -> Result<(), Box<dyn std::error::Error>> {
    /// use langtag::LanguageExtension;
    ///
    /// assert!(LanguageExtension::new("min-nan")?.eq_str("MIN-NAN"));
    /// # Ok(())
    /// # }
    /// ```
    #[inline]
    #[must_use]
    pub fn eq_str(self, other: &str) -> bool {
        self.text == Caseless(other)
    }

    /// Copies the string into an owned value.
    ///
    /// # Errors
    ///
    /// Returns an error if allocation fails.
    ///
    /// ```
    /// # fn main() -> Result<(), Box<dyn std::error::Error>> {
    /// use langtag::LanguageExtension;
    ///
    /// assert_eq!(LanguageExtension::new("MIN-NAN")?.try_to_owned()?.as_str(), "MIN-NAN");
    /// # Ok(())
    /// # }
    /// ```
    #[cfg(feature = "alloc")]
    #[inline]
    pub fn try_to_owned(self) -> Result<LanguageExtensionBuf, AllocError> {
        let text = try_string(self.as_str())?;
        Ok(LanguageExtensionBuf {
            text: Caseless(text),
        })
    }

    /// Returns an iterator over the extended subtags: `LanguageExtension::new("min-nan")?.iter()`
    /// yields `min` and `nan`.
    ///
    /// ```
    /// # fn main() -> Result<(), Box<dyn std::error::Error>> {
    /// use langtag::LanguageExtension;
    ///
    /// let mut subtags = LanguageExtension::new("min-nan")?.iter();
    /// assert_eq!(subtags.next().map(|subtag| subtag.as_str()), Some("min"));
    /// # Ok(())
    /// # }
    /// ```
    #[inline]
    #[must_use]
    pub fn iter(self) -> LanguageExtensionIter<'a> {
        LanguageExtensionIter::new(self.as_str())
    }
}

/// Returns whether the string is one to three extended subtags, joined by hyphens.
#[inline]
fn is_language_extension(text: &str) -> bool {
    !text.is_empty() && are_extended_within(3, Subtags::new(text))
}

impl fmt::Display for LanguageExtension<'_> {
    #[inline]
    fn fmt(&self, f: &mut fmt::Formatter<'_>) -> fmt::Result {
        f.pad(self.as_str())
    }
}

/// A language extension that owns its text.
///
/// ```
/// # fn main() -> Result<(), Box<dyn std::error::Error>> {
/// use langtag::LanguageExtension;
///
/// let owned = LanguageExtension::new("min-nan")?.to_owned();
/// assert!(owned.as_language_extension() == LanguageExtension::new("MIN-NAN")?);
/// assert_eq!(owned.into_string().as_str(), "min-nan");
/// # Ok(())
/// # }
/// ```
#[cfg(feature = "alloc")]
#[derive(PartialEq, Eq, PartialOrd, Ord, Hash)]
pub struct LanguageExtensionBuf {
    text: Caseless<String>,
}

#[cfg(feature = "alloc")]
shown!(LanguageExtensionBuf);

#[cfg(feature = "alloc")]
impl LanguageExtensionBuf {
    /// Parses a `String` as a language extension and keeps it, without copying.
    ///
    /// # Errors
    ///
    /// Returns the same `String` if it is not one to three extended subtags joined by hyphens, such
    /// as `min-`.
    ///
    /// ```
    /// # fn main() -> Result<(), Box<dyn std::error::Error>> {
    /// use langtag::LanguageExtensionBuf;
    /// use std::str::FromStr;
    ///
    /// assert_eq!(LanguageExtensionBuf::new("min-nan".to_string())?.as_str(), "min-nan");
    /// assert!(LanguageExtensionBuf::new("min-".to_string()).is_err());
    /// # Ok(())
    /// # }
    /// ```
    #[inline]
    pub fn new(text: String) -> Result<LanguageExtensionBuf, InvalidLanguageExtension<String>> {
        if !is_language_extension(text.as_str()) {
            return Err(InvalidLanguageExtension(text));
        }
        Ok(LanguageExtensionBuf {
            text: Caseless(text),
        })
    }

    /// Borrows the language extension.
    ///
    /// ```
    /// # fn main() -> Result<(), Box<dyn std::error::Error>> {
    /// use langtag::LanguageExtension;
    ///
    /// assert_eq!(
    ///     LanguageExtension::new("MIN-NAN")?.to_owned().as_language_extension().as_str(),
    ///     "MIN-NAN"
    /// );
    /// # Ok(())
    /// # }
    /// ```
    #[inline]
    #[must_use]
    pub fn as_language_extension(&self) -> LanguageExtension<'_> {
        LanguageExtension::from_checked(self.as_str())
    }

    /// Returns the string, in its original case.
    ///
    /// ```
    /// # fn main() -> Result<(), Box<dyn std::error::Error>> {
    /// use langtag::LanguageExtension;
    ///
    /// assert_eq!(LanguageExtension::new("MIN-NAN")?.to_owned().as_str(), "MIN-NAN");
    /// # Ok(())
    /// # }
    /// ```
    #[inline]
    #[must_use]
    pub fn as_str(&self) -> &str {
        self.text.0.as_str()
    }

    /// Returns the `String`, without copying it.
    ///
    /// ```
    /// # fn main() -> Result<(), Box<dyn std::error::Error>> {
    /// use langtag::LanguageExtension;
    ///
    /// assert_eq!(LanguageExtension::new("MIN-NAN")?.to_owned().into_string(), "MIN-NAN");
    /// # Ok(())
    /// # }
    /// ```
    #[inline]
    #[must_use]
    pub fn into_string(self) -> String {
        self.text.0
    }
}

#[cfg(feature = "alloc")]
impl fmt::Display for LanguageExtensionBuf {
    #[inline]
    fn fmt(&self, f: &mut fmt::Formatter<'_>) -> fmt::Result {
        f.pad(self.as_str())
    }
}
