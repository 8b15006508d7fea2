// Generated from crates/langtag_private/src/private_use.rt. Do not edit.

//! The private use part of a tag (RFC 5646 section 2.2.7).

use crate::erased::private::private_use_iter::PrivateUseIter;
use crate::erased::scan::{is_mark, is_private_subtag, Caseless, Subtags};
#[cfg(feature = "alloc")]
use crate::shim::{try_string, AllocError};
#[cfg(feature = "alloc")]
use alloc::string::String;
use core::fmt;

/// The error for a string that is not a private use part. It contains the string.
///
/// ```
/// use langtag::PrivateUse;
///
/// let error = PrivateUse::new("x").err();
/// assert_eq!(error.map(|error| error.0), Some("x"));
/// ```
#[derive(Debug, Clone, Copy, PartialEq, Eq, Hash)]
pub struct InvalidPrivateUse<T>(pub T);

impl<T: AsRef<[u8]>> fmt::Display for InvalidPrivateUse<T> {
    #[inline]
    fn fmt(&self, f: &mut fmt::Formatter<'_>) -> fmt::Result {
        f.write_str("invalid private use")?;
        crate::message::write_text(f, self.0.as_ref())
    }
}

impl<T: fmt::Debug + AsRef<[u8]>> core::error::Error for InvalidPrivateUse<T> {}

/// A private use part ([RFC 5646 section 2.2.7]): `x` or `X`, and one or more subtags after it,
/// joined by hyphens, such as `x-twain`. It may be the end of a tag, or a whole tag.
///
/// Two private use parts are equal if their strings differ only in the case of ASCII letters, such
/// as `x-twain` and `X-TWAIN`.
///
/// ```
/// # fn main() -> Result<(), Box<dyn std::error::Error>> {
/// use langtag::PrivateUse;
///
/// let part = PrivateUse::new("x-twain")?;
/// assert_eq!(part.as_str(), "x-twain");
/// assert!(part == PrivateUse::new("X-TWAIN")?);
/// # Ok(())
/// # }
/// ```
///
/// [RFC 5646 section 2.2.7]: https://www.rfc-editor.org/rfc/rfc5646#section-2.2.7
#[derive(Clone, Copy, PartialEq, Eq, PartialOrd, Ord, Hash)]
pub struct PrivateUse<'a> {
    text: Caseless<&'a str>,
}

shown!(PrivateUse<'_>);

impl<'a> PrivateUse<'a> {
    /// Parses a string as a private use part.
    ///
    /// # Errors
    ///
    /// Returns the string if it is not a private use part.
    ///
    /// ```
    /// use langtag::{InvalidPrivateUse, PrivateUse};
    ///
    /// assert!(PrivateUse::new("x-twain").is_ok());
    /// assert_eq!(PrivateUse::new("x"), Err(InvalidPrivateUse("x")));
    /// ```
    #[inline]
    pub fn new(text: &'a str) -> Result<PrivateUse<'a>, InvalidPrivateUse<&'a str>> {
        if !is_private_use(text) {
            return Err(InvalidPrivateUse(text));
        }
        Ok(PrivateUse::from_checked(text))
    }

    /// Wraps a string that is known to be a private use part, without checking it.
    /// `PrivateUse::from_checked(private_use.as_str())` is equal to `private_use`.
    #[inline]
    pub(crate) const fn from_checked(text: &'a str) -> PrivateUse<'a> {
        PrivateUse {
            text: Caseless(text),
        }
    }

    /// Returns the string, in its original case.
    ///
    /// ```
    /// # fn main() -> Result<(), Box<dyn std::error::Error>> {
    /// use langtag::PrivateUse;
    ///
    /// assert_eq!(PrivateUse::new("X-TWAIN")?.as_str(), "X-TWAIN");
    /// # Ok(())
    /// # }
    /// ```
    #[inline]
    #[must_use]
    pub const fn as_str(self) -> &'a str {
        self.text.0
    }

    /// Returns the string as bytes.
    ///
    /// ```
    /// # fn main() -> Result<(), Box<dyn std::error::Error>> {
    /// use langtag::PrivateUse;
    ///
    /// assert_eq!(PrivateUse::new("X-TWAIN")?.as_bytes(), b"X-TWAIN");
    /// # Ok(())
    /// # }
    /// ```
    #[inline]
    #[must_use]
    pub const fn as_bytes(self) -> &'a [u8] {
        self.as_str().as_bytes()
    }

    /// Returns whether another string equals this string, ignoring the case of ASCII letters.
    /// Comparisons and hashes also ignore case.
    ///
    /// ```
    /// # fn main() -> Result<(), Box<dyn std::error::Error>> {
    /// use langtag::PrivateUse;
    ///
    /// assert!(PrivateUse::new("x-twain")?.eq_str("X-TWAIN"));
    /// # Ok(())
    /// # }
    /// ```
    #[inline]
    #[must_use]
    pub fn eq_str(self, other: &str) -> bool {
        self.text == Caseless(other)
    }

    /// Copies the string into an owned value.
    ///
    /// # Errors
    ///
    /// Returns an error if allocation fails.
    ///
    /// ```
    /// # fn main() -> Result<(), Box<dyn std::error::Error>> {
    /// use langtag::PrivateUse;
    ///
    /// assert_eq!(PrivateUse::new("X-TWAIN")?.try_to_owned()?.as_str(), "X-TWAIN");
    /// # Ok(())
    /// # }
    /// ```
    #[cfg(feature = "alloc")]
    #[inline]
    pub fn try_to_owned(self) -> Result<PrivateUseBuf, AllocError> {
        let text = try_string(self.as_str())?;
        Ok(PrivateUseBuf {
            text: Caseless(text),
        })
    }

    /// Returns an iterator over the subtags after the first `x`: `PrivateUse::new("x-a-x")?.iter()`
    /// yields `a` and `x`.
    ///
    /// ```
    /// # fn main() -> Result<(), Box<dyn std::error::Error>> {
    /// use langtag::PrivateUse;
    ///
    /// let mut subtags = PrivateUse::new("x-a-x")?.iter();
    /// assert_eq!(subtags.next().map(|subtag| subtag.as_str()), Some("a"));
    /// assert_eq!(subtags.next().map(|subtag| subtag.as_str()), Some("x"));
    /// # Ok(())
    /// # }
    /// ```
    #[inline]
    #[must_use]
    pub fn iter(self) -> PrivateUseIter<'a> {
        PrivateUseIter::new(self.as_str())
    }
}

/// Returns whether the string is `x` or `X` and at least one private use subtag, joined by hyphens.
#[inline]
fn is_private_use(text: &str) -> bool {
    let mut subtags = Subtags::new(text);
    let marked = subtags
        .next()
        .is_some_and(|mark| is_mark_alone(mark.as_bytes()));
    let followed = subtags
        .next()
        .is_some_and(|first| is_private_subtag(first.as_bytes()));
    marked && followed && are_private(subtags)
}

/// Returns whether the bytes are only `x` or `X`.
#[inline]
fn is_mark_alone(bytes: &[u8]) -> bool {
    match bytes {
        [byte] => is_mark(*byte),
        _ => false,
    }
}

/// Returns whether all subtags that are left are private use subtags.
#[inline]
fn are_private(mut subtags: Subtags<'_>) -> bool {
    subtags.all(|subtag| is_private_subtag(subtag.as_bytes()))
}

impl fmt::Display for PrivateUse<'_> {
    #[inline]
    fn fmt(&self, f: &mut fmt::Formatter<'_>) -> fmt::Result {
        f.pad(self.as_str())
    }
}

/// A private use part that owns its text.
///
/// ```
/// # fn main() -> Result<(), Box<dyn std::error::Error>> {
/// use langtag::PrivateUse;
///
/// let owned = PrivateUse::new("x-twain")?.to_owned();
/// assert!(owned.as_private_use() == PrivateUse::new("X-TWAIN")?);
/// assert_eq!(owned.into_string().as_str(), "x-twain");
/// # Ok(())
/// # }
/// ```
#[cfg(feature = "alloc")]
#[derive(PartialEq, Eq, PartialOrd, Ord, Hash)]
pub struct PrivateUseBuf {
    text: Caseless<String>,
}

#[cfg(feature = "alloc")]
shown!(PrivateUseBuf);

#[cfg(feature = "alloc")]
impl PrivateUseBuf {
    /// Parses a `String` as a private use part and keeps it, without copying.
    ///
    /// # Errors
    ///
    /// Returns the same `String` if it is not a private use part, such as `x`.
    ///
    /// ```
    /// # fn main() -> Result<(), Box<dyn std::error::Error>> {
    /// use langtag::PrivateUseBuf;
    /// use std::str::FromStr;
    ///
    /// assert_eq!(PrivateUseBuf::new("x-twain".to_string())?.as_str(), "x-twain");
    /// assert!(PrivateUseBuf::new("x".to_string()).is_err());
    /// # Ok(())
    /// # }
    /// ```
    #[inline]
    pub fn new(text: String) -> Result<PrivateUseBuf, InvalidPrivateUse<String>> {
        if !is_private_use(text.as_str()) {
            return Err(InvalidPrivateUse(text));
        }
        Ok(PrivateUseBuf {
            text: Caseless(text),
        })
    }

    /// Borrows the private use part.
    ///
    /// ```
    /// # fn main() -> Result<(), Box<dyn std::error::Error>> {
    /// use langtag::PrivateUse;
    ///
    /// assert_eq!(PrivateUse::new("X-TWAIN")?.to_owned().as_private_use().as_str(), "X-TWAIN");
    /// # Ok(())
    /// # }
    /// ```
    #[inline]
    #[must_use]
    pub fn as_private_use(&self) -> PrivateUse<'_> {
        PrivateUse::from_checked(self.as_str())
    }

    /// Returns the string, in its original case.
    ///
    /// ```
    /// # fn main() -> Result<(), Box<dyn std::error::Error>> {
    /// use langtag::PrivateUse;
    ///
    /// assert_eq!(PrivateUse::new("X-TWAIN")?.to_owned().as_str(), "X-TWAIN");
    /// # Ok(())
    /// # }
    /// ```
    #[inline]
    #[must_use]
    pub fn as_str(&self) -> &str {
        self.text.0.as_str()
    }

    /// Returns the `String`, without copying it.
    ///
    /// ```
    /// # fn main() -> Result<(), Box<dyn std::error::Error>> {
    /// use langtag::PrivateUse;
    ///
    /// assert_eq!(PrivateUse::new("X-TWAIN")?.to_owned().into_string(), "X-TWAIN");
    /// # Ok(())
    /// # }
    /// ```
    #[inline]
    #[must_use]
    pub fn into_string(self) -> String {
        self.text.0
    }
}

#[cfg(feature = "alloc")]
impl fmt::Display for PrivateUseBuf {
    #[inline]
    fn fmt(&self, f: &mut fmt::Formatter<'_>) -> fmt::Result {
        f.pad(self.as_str())
    }
}
