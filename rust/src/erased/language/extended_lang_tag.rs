// Generated from crates/langtag_language/src/extended_lang_tag.rt. Do not edit.

//! The extended language subtag (RFC 5646 section 2.2.2).

use crate::erased::scan::{is_extended, Caseless};
#[cfg(feature = "alloc")]
use crate::shim::{try_string, AllocError};
#[cfg(feature = "alloc")]
use alloc::string::String;
use core::fmt;

/// The error for a string that is not an extended language subtag. It contains the string.
///
/// ```
/// use langtag::ExtendedLangTag;
///
/// let error = ExtendedLangTag::new("yu").err();
/// assert_eq!(error.map(|error| error.0), Some("yu"));
/// ```
#[derive(Debug, Clone, Copy, PartialEq, Eq, Hash)]
pub struct InvalidExtendedLangTag<T>(pub T);

impl<T: AsRef<[u8]>> fmt::Display for InvalidExtendedLangTag<T> {
    #[inline]
    fn fmt(&self, f: &mut fmt::Formatter<'_>) -> fmt::Result {
        f.write_str("invalid extended language subtag")?;
        crate::message::write_text(f, self.0.as_ref())
    }
}

impl<T: fmt::Debug + AsRef<[u8]>> core::error::Error for InvalidExtendedLangTag<T> {}

/// An extended language subtag ([RFC 5646 section 2.2.2]): three letters, such as `yue` in
/// `zh-yue`.
///
/// Two extended language subtags are equal if their strings differ only in the case of ASCII
/// letters, such as `yue` and `YUE`.
///
/// ```
/// # fn main() -> Result<(), Box<dyn std::error::Error>> {
/// use langtag::ExtendedLangTag;
///
/// let subtag = ExtendedLangTag::new("yue")?;
/// assert_eq!(subtag.as_str(), "yue");
/// assert!(subtag == ExtendedLangTag::new("YUE")?);
/// # Ok(())
/// # }
/// ```
///
/// [RFC 5646 section 2.2.2]: https://www.rfc-editor.org/rfc/rfc5646#section-2.2.2
#[derive(Clone, Copy, PartialEq, Eq, PartialOrd, Ord, Hash)]
pub struct ExtendedLangTag<'a> {
    text: Caseless<&'a str>,
}

shown!(ExtendedLangTag<'_>);

impl<'a> ExtendedLangTag<'a> {
    /// Parses a string as an extended language subtag.
    ///
    /// # Errors
    ///
    /// Returns the string if it is not three letters.
    ///
    /// ```
    /// use langtag::{ExtendedLangTag, InvalidExtendedLangTag};
    ///
    /// assert!(ExtendedLangTag::new("yue").is_ok());
    /// assert_eq!(ExtendedLangTag::new("yu"), Err(InvalidExtendedLangTag("yu")));
    /// ```
    #[inline]
    pub fn new(text: &'a str) -> Result<ExtendedLangTag<'a>, InvalidExtendedLangTag<&'a str>> {
        if !is_extended(text.as_bytes()) {
            return Err(InvalidExtendedLangTag(text));
        }
        Ok(ExtendedLangTag::from_checked(text))
    }

    /// Wraps a string that is known to be an extended language subtag, without checking it.
    /// `ExtendedLangTag::from_checked(extended.as_str())` is equal to `extended`.
    #[inline]
    pub(crate) fn from_checked(text: &'a str) -> ExtendedLangTag<'a> {
        ExtendedLangTag {
            text: Caseless(text),
        }
    }

    /// Returns the string, in its original case.
    ///
    /// ```
    /// # fn main() -> Result<(), Box<dyn std::error::Error>> {
    /// use langtag::ExtendedLangTag;
    ///
    /// assert_eq!(ExtendedLangTag::new("YUE")?.as_str(), "YUE");
    /// # Ok(())
    /// # }
    /// ```
    #[inline]
    #[must_use]
    pub const fn as_str(self) -> &'a str {
        self.text.0
    }

    /// Returns the string as bytes.
    ///
    /// ```
    /// # fn main() -> Result<(), Box<dyn std::error::Error>> {
    /// use langtag::ExtendedLangTag;
    ///
    /// assert_eq!(ExtendedLangTag::new("YUE")?.as_bytes(), b"YUE");
    /// # Ok(())
    /// # }
    /// ```
    #[inline]
    #[must_use]
    pub const fn as_bytes(self) -> &'a [u8] {
        self.as_str().as_bytes()
    }

    /// Returns whether another string equals this string, ignoring the case of ASCII letters.
    /// Comparisons and hashes also ignore case.
    ///
    /// ```
    /// # fn main() -> Result<(), Box<dyn std::error::Error>> {
    /// use langtag::ExtendedLangTag;
    ///
    /// assert!(ExtendedLangTag::new("yue")?.eq_str("YUE"));
    /// # Ok(())
    /// # }
    /// ```
    #[inline]
    #[must_use]
    pub fn eq_str(self, other: &str) -> bool {
        self.text == Caseless(other)
    }

    /// Copies the string into an owned value.
    ///
    /// # Errors
    ///
    /// Returns an error if allocation fails.
    ///
    /// ```
    /// # fn main() -> Result<(), Box<dyn std::error::Error>> {
    /// use langtag::ExtendedLangTag;
    ///
    /// assert_eq!(ExtendedLangTag::new("YUE")?.try_to_owned()?.as_str(), "YUE");
    /// # Ok(())
    /// # }
    /// ```
    #[cfg(feature = "alloc")]
    #[inline]
    pub fn try_to_owned(self) -> Result<ExtendedLangTagBuf, AllocError> {
        let text = try_string(self.as_str())?;
        Ok(ExtendedLangTagBuf {
            text: Caseless(text),
        })
    }
}

impl fmt::Display for ExtendedLangTag<'_> {
    #[inline]
    fn fmt(&self, f: &mut fmt::Formatter<'_>) -> fmt::Result {
        f.pad(self.as_str())
    }
}

/// An extended language subtag that owns its text.
///
/// ```
/// # fn main() -> Result<(), Box<dyn std::error::Error>> {
/// use langtag::ExtendedLangTag;
///
/// let owned = ExtendedLangTag::new("yue")?.to_owned();
/// assert!(owned.as_extended_lang_tag() == ExtendedLangTag::new("YUE")?);
/// assert_eq!(owned.into_string().as_str(), "yue");
/// # Ok(())
/// # }
/// ```
#[cfg(feature = "alloc")]
#[derive(PartialEq, Eq, PartialOrd, Ord, Hash)]
pub struct ExtendedLangTagBuf {
    text: Caseless<String>,
}

#[cfg(feature = "alloc")]
shown!(ExtendedLangTagBuf);

#[cfg(feature = "alloc")]
impl ExtendedLangTagBuf {
    /// Parses a `String` as a subtag and keeps it, without copying.
    ///
    /// # Errors
    ///
    /// Returns the same `String` if it is not three letters, such as `yu`.
    ///
    /// ```
    /// # fn main() -> Result<(), Box<dyn std::error::Error>> {
    /// use langtag::ExtendedLangTagBuf;
    /// use std::str::FromStr;
    ///
    /// assert_eq!(ExtendedLangTagBuf::new("yue".to_string())?.as_str(), "yue");
    /// assert!(ExtendedLangTagBuf::new("yu".to_string()).is_err());
    /// # Ok(())
    /// # }
    /// ```
    #[inline]
    pub fn new(text: String) -> Result<ExtendedLangTagBuf, InvalidExtendedLangTag<String>> {
        if !is_extended(text.as_bytes()) {
            return Err(InvalidExtendedLangTag(text));
        }
        Ok(ExtendedLangTagBuf {
            text: Caseless(text),
        })
    }

    /// Borrows the subtag.
    ///
    /// ```
    /// # fn main() -> Result<(), Box<dyn std::error::Error>> {
    /// use langtag::ExtendedLangTag;
    ///
    /// assert_eq!(ExtendedLangTag::new("YUE")?.to_owned().as_extended_lang_tag().as_str(), "YUE");
    /// # Ok(())
    /// # }
    /// ```
    #[inline]
    #[must_use]
    pub fn as_extended_lang_tag(&self) -> ExtendedLangTag<'_> {
        ExtendedLangTag::from_checked(self.as_str())
    }

    /// Returns the string, in its original case.
    ///
    /// ```
    /// # fn main() -> Result<(), Box<dyn std::error::Error>> {
    /// use langtag::ExtendedLangTag;
    ///
    /// assert_eq!(ExtendedLangTag::new("YUE")?.to_owned().as_str(), "YUE");
    /// # Ok(())
    /// # }
    /// ```
    #[inline]
    #[must_use]
    pub fn as_str(&self) -> &str {
        self.text.0.as_str()
    }

    /// Returns the `String`, without copying it.
    ///
    /// ```
    /// # fn main() -> Result<(), Box<dyn std::error::Error>> {
    /// use langtag::ExtendedLangTag;
    ///
    /// assert_eq!(ExtendedLangTag::new("YUE")?.to_owned().into_string(), "YUE");
    /// # Ok(())
    /// # }
    /// ```
    #[inline]
    #[must_use]
    pub fn into_string(self) -> String {
        self.text.0
    }
}

#[cfg(feature = "alloc")]
impl fmt::Display for ExtendedLangTagBuf {
    #[inline]
    fn fmt(&self, f: &mut fmt::Formatter<'_>) -> fmt::Result {
        f.pad(self.as_str())
    }
}
