// Generated from crates/langtag_extension/src/extension.rt. Do not edit.

//! An extension (RFC 5646 section 2.2.6).

use crate::erased::extension::extension_iter::ExtensionIter;
use crate::erased::extension::singleton::Singleton;
use crate::erased::scan::{into_smallcase, is_extension_subtag, is_singleton, Caseless, Subtags};
#[cfg(feature = "alloc")]
use crate::shim::{try_string, AllocError};
#[cfg(feature = "alloc")]
use alloc::string::String;
use core::fmt;

/// The error for a string that is not an extension. It contains the string.
///
/// ```
/// use langtag::Extension;
///
/// let error = Extension::new("u").err();
/// assert_eq!(error.map(|error| error.0), Some("u"));
/// ```
#[derive(Debug, Clone, Copy, PartialEq, Eq, Hash)]
pub struct InvalidExtension<T>(pub T);

impl<T: AsRef<[u8]>> fmt::Display for InvalidExtension<T> {
    #[inline]
    fn fmt(&self, f: &mut fmt::Formatter<'_>) -> fmt::Result {
        f.write_str("invalid extension")?;
        crate::message::write_text(f, self.0.as_ref())
    }
}

impl<T: fmt::Debug + AsRef<[u8]>> core::error::Error for InvalidExtension<T> {}

/// An extension ([RFC 5646 section 2.2.6]): a singleton and one or more subtags of two to eight
/// letters and digits, such as `u-co-phonebk`.
///
/// Two extensions are equal if their strings differ only in the case of ASCII letters, such as
/// `u-co` and `U-CO`.
///
/// ```
/// # fn main() -> Result<(), Box<dyn std::error::Error>> {
/// use langtag::Extension;
///
/// let extension = Extension::new("u-co")?;
/// assert_eq!(extension.as_str(), "u-co");
/// assert!(extension == Extension::new("U-CO")?);
/// # Ok(())
/// # }
/// ```
///
/// [RFC 5646 section 2.2.6]: https://www.rfc-editor.org/rfc/rfc5646#section-2.2.6
#[derive(Clone, Copy, PartialEq, Eq, PartialOrd, Ord, Hash)]
pub struct Extension<'a> {
    text: Caseless<&'a str>,
}

shown!(Extension<'_>);

impl<'a> Extension<'a> {
    /// Parses a string as an extension.
    ///
    /// # Errors
    ///
    /// Returns the string if it is not one extension: `Extension::new("a")`, which has no subtag,
    /// is `Err(InvalidExtension("a"))`. Other examples are `a-bb-b-cc`, which is two extensions,
    /// and `x-bb`, which is a private use part.
    ///
    /// ```
    /// use langtag::Extension;
    ///
    /// assert!(Extension::new("u-co-phonebk").is_ok());
    /// ```
    #[inline]
    pub fn new(text: &'a str) -> Result<Extension<'a>, InvalidExtension<&'a str>> {
        if !is_extension(text) {
            return Err(InvalidExtension(text));
        }
        Ok(Extension::from_checked(text))
    }

    /// Wraps a string that is known to be an extension, without checking it.
    /// `Extension::from_checked(extension.as_str())` is equal to `extension`.
    #[inline]
    pub(crate) fn from_checked(text: &'a str) -> Extension<'a> {
        Extension {
            text: Caseless(text),
        }
    }

    /// Returns the string, in its original case.
    ///
    /// ```
    /// # fn main() -> Result<(), Box<dyn std::error::Error>> {
    /// use langtag::Extension;
    ///
    /// assert_eq!(Extension::new("U-CO")?.as_str(), "U-CO");
    /// # Ok(())
    /// # }
    /// ```
    #[inline]
    #[must_use]
    pub const fn as_str(self) -> &'a str {
        self.text.0
    }

    /// Returns the string as bytes.
    ///
    /// ```
    /// # fn main() -> Result<(), Box<dyn std::error::Error>> {
    /// use langtag::Extension;
    ///
    /// assert_eq!(Extension::new("U-CO")?.as_bytes(), b"U-CO");
    /// # Ok(())
    /// # }
    /// ```
    #[inline]
    #[must_use]
    pub const fn as_bytes(self) -> &'a [u8] {
        self.as_str().as_bytes()
    }

    /// Returns whether another string equals this string, ignoring the case of ASCII letters.
    /// Comparisons and hashes also ignore case.
    ///
    /// ```
    /// # fn main() -> Result<(), Box<dyn std::error::Error>> {
    /// use langtag::Extension;
    ///
    /// assert!(Extension::new("u-co")?.eq_str("U-CO"));
    /// # Ok(())
    /// # }
    /// ```
    #[inline]
    #[must_use]
    pub fn eq_str(self, other: &str) -> bool {
        self.text == Caseless(other)
    }

    /// Copies the string into an owned value.
    ///
    /// # Errors
    ///
    /// Returns an error if allocation fails.
    ///
    /// ```
    /// # fn main() -> Result<(), Box<dyn std::error::Error>> {
    /// use langtag::Extension;
    ///
    /// assert_eq!(Extension::new("U-CO")?.try_to_owned()?.as_str(), "U-CO");
    /// # Ok(())
    /// # }
    /// ```
    #[cfg(feature = "alloc")]
    #[inline]
    pub fn try_to_owned(self) -> Result<ExtensionBuf, AllocError> {
        let text = try_string(self.as_str())?;
        Ok(ExtensionBuf {
            text: Caseless(text),
        })
    }

    /// Returns the singleton of the extension, in its original case: `U` for `U-co-phonebk`.
    ///
    /// ```
    /// # fn main() -> Result<(), Box<dyn std::error::Error>> {
    /// use langtag::Extension;
    ///
    /// assert_eq!(Extension::new("U-co-phonebk")?.singleton().unwrap(), b'U');
    /// # Ok(())
    /// # }
    /// ```
    #[inline]
    #[must_use]
    pub fn singleton(self) -> Singleton {
        Singleton::from_checked(self.as_bytes()[0])
    }

    /// Returns whether the extension begins with the singleton, ignoring case.
    #[inline]
    pub(crate) fn has_singleton(self, singleton: Singleton) -> bool {
        into_smallcase(self.singleton().unwrap()) == into_smallcase(singleton.unwrap())
    }

    /// Returns an iterator over the subtags after the singleton: `co` and `phonebk` for
    /// `u-co-phonebk`.
    ///
    /// ```
    /// # fn main() -> Result<(), Box<dyn std::error::Error>> {
    /// use langtag::Extension;
    ///
    /// let mut subtags = Extension::new("u-co-phonebk")?.iter();
    /// assert_eq!(subtags.next().map(|subtag| subtag.as_str()), Some("co"));
    /// assert_eq!(subtags.next().map(|subtag| subtag.as_str()), Some("phonebk"));
    /// # Ok(())
    /// # }
    /// ```
    #[inline]
    #[must_use]
    pub fn iter(self) -> ExtensionIter<'a> {
        ExtensionIter::new(self.as_str())
    }
}

impl fmt::Display for Extension<'_> {
    #[inline]
    fn fmt(&self, f: &mut fmt::Formatter<'_>) -> fmt::Result {
        f.pad(self.as_str())
    }
}

/// An extension that owns its text.
///
/// ```
/// # fn main() -> Result<(), Box<dyn std::error::Error>> {
/// use langtag::Extension;
///
/// let owned = Extension::new("u-co")?.to_owned();
/// assert!(owned.as_extension() == Extension::new("U-CO")?);
/// assert_eq!(owned.into_string().as_str(), "u-co");
/// # Ok(())
/// # }
/// ```
#[cfg(feature = "alloc")]
#[derive(PartialEq, Eq, PartialOrd, Ord, Hash)]
pub struct ExtensionBuf {
    text: Caseless<String>,
}

#[cfg(feature = "alloc")]
shown!(ExtensionBuf);

#[cfg(feature = "alloc")]
impl ExtensionBuf {
    /// Parses a `String` as an extension and keeps it, without copying.
    ///
    /// # Errors
    ///
    /// Returns the same `String` if it is not one extension, such as `a`.
    ///
    /// ```
    /// # fn main() -> Result<(), Box<dyn std::error::Error>> {
    /// use langtag::ExtensionBuf;
    /// use std::str::FromStr;
    ///
    /// assert_eq!(ExtensionBuf::new("u-co".to_string())?.as_str(), "u-co");
    /// assert!(ExtensionBuf::new("a".to_string()).is_err());
    /// # Ok(())
    /// # }
    /// ```
    #[inline]
    pub fn new(text: String) -> Result<ExtensionBuf, InvalidExtension<String>> {
        if !is_extension(text.as_str()) {
            return Err(InvalidExtension(text));
        }
        Ok(ExtensionBuf {
            text: Caseless(text),
        })
    }

    /// Borrows the extension.
    ///
    /// ```
    /// # fn main() -> Result<(), Box<dyn std::error::Error>> {
    /// use langtag::Extension;
    ///
    /// assert_eq!(Extension::new("U-CO")?.to_owned().as_extension().as_str(), "U-CO");
    /// # Ok(())
    /// # }
    /// ```
    #[inline]
    #[must_use]
    pub fn as_extension(&self) -> Extension<'_> {
        Extension::from_checked(self.as_str())
    }

    /// Returns the string, in its original case.
    ///
    /// ```
    /// # fn main() -> Result<(), Box<dyn std::error::Error>> {
    /// use langtag::Extension;
    ///
    /// assert_eq!(Extension::new("U-CO")?.to_owned().as_str(), "U-CO");
    /// # Ok(())
    /// # }
    /// ```
    #[inline]
    #[must_use]
    pub fn as_str(&self) -> &str {
        self.text.0.as_str()
    }

    /// Returns the `String`, without copying it.
    ///
    /// ```
    /// # fn main() -> Result<(), Box<dyn std::error::Error>> {
    /// use langtag::Extension;
    ///
    /// assert_eq!(Extension::new("U-CO")?.to_owned().into_string(), "U-CO");
    /// # Ok(())
    /// # }
    /// ```
    #[inline]
    #[must_use]
    pub fn into_string(self) -> String {
        self.text.0
    }
}

#[cfg(feature = "alloc")]
impl fmt::Display for ExtensionBuf {
    #[inline]
    fn fmt(&self, f: &mut fmt::Formatter<'_>) -> fmt::Result {
        f.pad(self.as_str())
    }
}

/// Returns whether the string is a singleton and at least one subtag of an extension, joined by
/// hyphens.
#[inline]
pub(crate) fn is_extension(text: &str) -> bool {
    let mut subtags = Subtags::new(text);
    let opened = subtags
        .next()
        .is_some_and(|opening| is_singleton_alone(opening.as_bytes()));
    let followed = subtags
        .next()
        .is_some_and(|first| is_extension_subtag(first.as_bytes()));
    opened && followed && all_are_extension_subtags(subtags)
}

/// Returns whether the bytes are only a singleton.
#[inline]
fn is_singleton_alone(bytes: &[u8]) -> bool {
    match bytes {
        [byte] => is_singleton(*byte),
        _ => false,
    }
}

/// Returns whether all subtags that are left are subtags of an extension.
#[inline]
fn all_are_extension_subtags(mut subtags: Subtags<'_>) -> bool {
    subtags.all(|subtag| is_extension_subtag(subtag.as_bytes()))
}
