// Generated from crates/langtag_extension/src/extensions.rt. Do not edit.

//! The extensions of a tag (RFC 5646 section 2.2.6).

use crate::erased::extension::extension::{is_extension, Extension};
use crate::erased::extension::extension_iter::ExtensionIter;
use crate::erased::extension::extension_texts::ExtensionTexts;
use crate::erased::extension::extensions_iter::ExtensionsIter;
use crate::erased::extension::singleton::Singleton;
use crate::erased::scan::Caseless;
#[cfg(feature = "alloc")]
use crate::shim::{try_string, AllocError};
#[cfg(feature = "alloc")]
use alloc::string::String;
use core::fmt;

/// The error for a string that is not a list of extensions. It contains the string.
///
/// ```
/// use langtag::Extensions;
///
/// let error = Extensions::new("a-bb-u").err();
/// assert_eq!(error.map(|error| error.0), Some("a-bb-u"));
/// ```
#[derive(Debug, Clone, Copy, PartialEq, Eq, Hash)]
pub struct InvalidExtensions<T>(pub T);

impl<T: AsRef<[u8]>> fmt::Display for InvalidExtensions<T> {
    #[inline]
    fn fmt(&self, f: &mut fmt::Formatter<'_>) -> fmt::Result {
        f.write_str("invalid extensions")?;
        crate::message::write_text(f, self.0.as_ref())
    }
}

impl<T: fmt::Debug + AsRef<[u8]>> core::error::Error for InvalidExtensions<T> {}

/// The extensions of a tag ([RFC 5646 section 2.2.6]), joined by hyphens, such as
/// `a-ext1-ext2-u-co-phonebk`. The empty string means no extensions.
///
/// A singleton may occur twice: a tag with such a list is well formed but not valid (section
/// 2.2.9). Two lists of extensions are equal if their strings differ only in the case of ASCII
/// letters, such as `u-co` and `U-CO`.
///
/// ```
/// # fn main() -> Result<(), Box<dyn std::error::Error>> {
/// use langtag::Extensions;
///
/// let extensions = Extensions::new("a-bb-u-co")?;
/// assert_eq!(extensions.as_str(), "a-bb-u-co");
/// assert!(extensions == Extensions::new("A-BB-U-CO")?);
/// # Ok(())
/// # }
/// ```
///
/// [RFC 5646 section 2.2.6]: https://www.rfc-editor.org/rfc/rfc5646#section-2.2.6
#[derive(Clone, Copy, PartialEq, Eq, PartialOrd, Ord, Hash)]
pub struct Extensions<'a> {
    text: Caseless<&'a str>,
}

shown!(Extensions<'_>);

impl<'a> Extensions<'a> {
    /// No extensions.
    ///
    /// ```
    /// use langtag::Extensions;
    ///
    /// assert_eq!(Extensions::EMPTY.as_str(), "");
    /// ```
    pub const EMPTY: Extensions<'static> = Extensions { text: Caseless("") };

    /// Parses a string as extensions: `Extensions::new("a-ext1-u-co")` and `Extensions::new("")`
    /// are `Ok`.
    ///
    /// # Errors
    ///
    /// Returns the string if it is not a list of extensions joined by hyphens.
    ///
    /// ```
    /// use langtag::{Extensions, InvalidExtensions};
    ///
    /// assert_eq!(Extensions::new("u-"), Err(InvalidExtensions("u-")));
    /// ```
    #[inline]
    pub fn new(text: &'a str) -> Result<Extensions<'a>, InvalidExtensions<&'a str>> {
        if !are_extensions(text) {
            return Err(InvalidExtensions(text));
        }
        Ok(Extensions::from_checked(text))
    }

    /// Wraps a string that is known to be a list of extensions, without checking it.
    /// `Extensions::from_checked(extensions.as_str())` is equal to `extensions`.
    #[inline]
    pub(crate) fn from_checked(text: &'a str) -> Extensions<'a> {
        Extensions {
            text: Caseless(text),
        }
    }

    /// Returns the string, in its original case.
    ///
    /// ```
    /// # fn main() -> Result<(), Box<dyn std::error::Error>> {
    /// use langtag::Extensions;
    ///
    /// assert_eq!(Extensions::new("U-CO")?.as_str(), "U-CO");
    /// # Ok(())
    /// # }
    /// ```
    #[inline]
    #[must_use]
    pub const fn as_str(self) -> &'a str {
        self.text.0
    }

    /// Returns the string as bytes.
    ///
    /// ```
    /// # fn main() -> Result<(), Box<dyn std::error::Error>> {
    /// use langtag::Extensions;
    ///
    /// assert_eq!(Extensions::new("U-CO")?.as_bytes(), b"U-CO");
    /// # Ok(())
    /// # }
    /// ```
    #[inline]
    #[must_use]
    pub const fn as_bytes(self) -> &'a [u8] {
        self.as_str().as_bytes()
    }

    /// Returns whether another string equals this string, ignoring the case of ASCII letters.
    /// Comparisons and hashes also ignore case.
    ///
    /// ```
    /// # fn main() -> Result<(), Box<dyn std::error::Error>> {
    /// use langtag::Extensions;
    ///
    /// assert!(Extensions::new("u-co")?.eq_str("U-CO"));
    /// # Ok(())
    /// # }
    /// ```
    #[inline]
    #[must_use]
    pub fn eq_str(self, other: &str) -> bool {
        self.text == Caseless(other)
    }

    /// Copies the string into an owned value.
    ///
    /// # Errors
    ///
    /// Returns an error if allocation fails.
    ///
    /// ```
    /// # fn main() -> Result<(), Box<dyn std::error::Error>> {
    /// use langtag::Extensions;
    ///
    /// assert_eq!(Extensions::new("U-CO")?.try_to_owned()?.as_str(), "U-CO");
    /// # Ok(())
    /// # }
    /// ```
    #[cfg(feature = "alloc")]
    #[inline]
    pub fn try_to_owned(self) -> Result<ExtensionsBuf, AllocError> {
        let text = try_string(self.as_str())?;
        Ok(ExtensionsBuf {
            text: Caseless(text),
        })
    }

    /// Returns an iterator over the extensions, including extensions with a repeated singleton:
    /// `a-bb` and `A-cc` for `a-bb-A-cc`.
    ///
    /// ```
    /// # fn main() -> Result<(), Box<dyn std::error::Error>> {
    /// use langtag::Extensions;
    ///
    /// let mut extensions = Extensions::new("a-bb-A-cc")?.iter();
    /// assert_eq!(extensions.next().map(|extension| extension.as_str()), Some("a-bb"));
    /// assert_eq!(extensions.next().map(|extension| extension.as_str()), Some("A-cc"));
    /// # Ok(())
    /// # }
    /// ```
    #[inline]
    #[must_use]
    pub fn iter(self) -> ExtensionsIter<'a> {
        ExtensionsIter::new(self.as_str())
    }

    /// Returns the first extension with the singleton, ignoring case: `A` finds `a-bb` in
    /// `a-bb-A-cc`.
    ///
    /// ```
    /// # fn main() -> Result<(), Box<dyn std::error::Error>> {
    /// use langtag::{Extensions, Singleton};
    ///
    /// let found = Extensions::new("a-bb-A-cc")?.get(Singleton::new(b'A')?);
    /// assert_eq!(found.map(|extension| extension.as_str()), Some("a-bb"));
    /// # Ok(())
    /// # }
    /// ```
    #[inline]
    pub(crate) fn get_singleton(self, singleton: Singleton) -> Option<Extension<'a>> {
        self.iter()
            .find(|extension| extension.has_singleton(singleton))
    }

    /// Returns an iterator over the subtags of the extension that `get` returns, or over no subtags
    /// if `get` returns `None`: `co` and `phonebk` for the singleton `u` in `a-bb-u-co-phonebk`.
    ///
    /// ```
    /// # fn main() -> Result<(), Box<dyn std::error::Error>> {
    /// use langtag::{Extensions, Singleton};
    ///
    /// let mut subtags = Extensions::new("a-bb-u-co-phonebk")?.iter_extension(Singleton::new(b'u')?);
    /// assert_eq!(subtags.next().map(|subtag| subtag.as_str()), Some("co"));
    /// # Ok(())
    /// # }
    /// ```
    #[inline]
    pub(crate) fn iter_singleton(self, singleton: Singleton) -> ExtensionIter<'a> {
        let Some(extension) = self.get_singleton(singleton) else {
            return ExtensionIter::empty();
        };
        extension.iter()
    }
}

impl Default for Extensions<'_> {
    #[inline]
    fn default() -> Self {
        Extensions::EMPTY
    }
}

impl fmt::Display for Extensions<'_> {
    #[inline]
    fn fmt(&self, f: &mut fmt::Formatter<'_>) -> fmt::Result {
        f.pad(self.as_str())
    }
}

/// Extensions that own their text.
///
/// ```
/// # fn main() -> Result<(), Box<dyn std::error::Error>> {
/// use langtag::Extensions;
///
/// let owned = Extensions::new("a-bb-u-co")?.to_owned();
/// assert!(owned.as_extensions() == Extensions::new("A-BB-U-CO")?);
/// assert_eq!(owned.into_string().as_str(), "a-bb-u-co");
/// # Ok(())
/// # }
/// ```
#[cfg(feature = "alloc")]
#[derive(PartialEq, Eq, PartialOrd, Ord, Hash)]
pub struct ExtensionsBuf {
    text: Caseless<String>,
}

#[cfg(feature = "alloc")]
shown!(ExtensionsBuf);

#[cfg(feature = "alloc")]
impl ExtensionsBuf {
    /// Parses a `String` as extensions and keeps it, without copying.
    ///
    /// # Errors
    ///
    /// Returns the same `String` if it is not a list of extensions joined by hyphens, such as `u-`.
    ///
    /// ```
    /// # fn main() -> Result<(), Box<dyn std::error::Error>> {
    /// use langtag::ExtensionsBuf;
    /// use std::str::FromStr;
    ///
    /// assert_eq!(ExtensionsBuf::new("a-ext1-u-co".to_string())?.as_str(), "a-ext1-u-co");
    /// assert!(ExtensionsBuf::new("u-".to_string()).is_err());
    /// # Ok(())
    /// # }
    /// ```
    #[inline]
    pub fn new(text: String) -> Result<ExtensionsBuf, InvalidExtensions<String>> {
        if !are_extensions(text.as_str()) {
            return Err(InvalidExtensions(text));
        }
        Ok(ExtensionsBuf {
            text: Caseless(text),
        })
    }

    /// Borrows the extensions.
    ///
    /// ```
    /// # fn main() -> Result<(), Box<dyn std::error::Error>> {
    /// use langtag::Extensions;
    ///
    /// assert_eq!(Extensions::new("U-CO")?.to_owned().as_extensions().as_str(), "U-CO");
    /// # Ok(())
    /// # }
    /// ```
    #[inline]
    #[must_use]
    pub fn as_extensions(&self) -> Extensions<'_> {
        Extensions::from_checked(self.as_str())
    }

    /// Returns the string, in its original case.
    ///
    /// ```
    /// # fn main() -> Result<(), Box<dyn std::error::Error>> {
    /// use langtag::Extensions;
    ///
    /// assert_eq!(Extensions::new("U-CO")?.to_owned().as_str(), "U-CO");
    /// # Ok(())
    /// # }
    /// ```
    #[inline]
    #[must_use]
    pub fn as_str(&self) -> &str {
        self.text.0.as_str()
    }

    /// Returns the `String`, without copying it.
    ///
    /// ```
    /// # fn main() -> Result<(), Box<dyn std::error::Error>> {
    /// use langtag::Extensions;
    ///
    /// assert_eq!(Extensions::new("U-CO")?.to_owned().into_string(), "U-CO");
    /// # Ok(())
    /// # }
    /// ```
    #[inline]
    #[must_use]
    pub fn into_string(self) -> String {
        self.text.0
    }
}

#[cfg(feature = "alloc")]
impl fmt::Display for ExtensionsBuf {
    #[inline]
    fn fmt(&self, f: &mut fmt::Formatter<'_>) -> fmt::Result {
        f.pad(self.as_str())
    }
}

/// Returns whether the string is empty or a list of extensions joined by hyphens.
#[inline]
fn are_extensions(text: &str) -> bool {
    ExtensionTexts::new(text).all(|text| is_extension(text))
}
