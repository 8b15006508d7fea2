// Generated from crates/langtag_place/src/variant.rt. Do not edit.

//! The variant subtag (RFC 5646 section 2.2.5).

use crate::erased::scan::{is_variant, Caseless};
#[cfg(feature = "alloc")]
use crate::shim::{try_string, AllocError};
#[cfg(feature = "alloc")]
use alloc::string::String;
use core::fmt;

/// The error for a string that is not a variant. It contains the string.
///
/// ```
/// use langtag::Variant;
///
/// let error = Variant::new("roz").err();
/// assert_eq!(error.map(|error| error.0), Some("roz"));
/// ```
#[derive(Debug, Clone, Copy, PartialEq, Eq, Hash)]
pub struct InvalidVariant<T>(pub T);

impl<T: AsRef<[u8]>> fmt::Display for InvalidVariant<T> {
    #[inline]
    fn fmt(&self, f: &mut fmt::Formatter<'_>) -> fmt::Result {
        f.write_str("invalid variant")?;
        crate::message::write_text(f, self.0.as_ref())
    }
}

impl<T: fmt::Debug + AsRef<[u8]>> core::error::Error for InvalidVariant<T> {}

/// A variant subtag ([RFC 5646 section 2.2.5]): five to eight letters and digits, such as `rozaj`,
/// or a digit followed by three letters or digits, such as `1996`.
///
/// Two variants are equal if their strings differ only in the case of ASCII letters, such as
/// `rozaj` and `ROZAJ`.
///
/// ```
/// # fn main() -> Result<(), Box<dyn std::error::Error>> {
/// use langtag::Variant;
///
/// let variant = Variant::new("rozaj")?;
/// assert_eq!(variant.as_str(), "rozaj");
/// assert!(variant == Variant::new("ROZAJ")?);
/// # Ok(())
/// # }
/// ```
///
/// [RFC 5646 section 2.2.5]: https://www.rfc-editor.org/rfc/rfc5646#section-2.2.5
#[derive(Clone, Copy, PartialEq, Eq, PartialOrd, Ord, Hash)]
pub struct Variant<'a> {
    text: Caseless<&'a str>,
}

shown!(Variant<'_>);

impl<'a> Variant<'a> {
    /// Parses a string as a variant.
    ///
    /// # Errors
    ///
    /// Returns the string if it is neither five to eight letters and digits nor a digit followed by
    /// three letters or digits.
    ///
    /// ```
    /// use langtag::{InvalidVariant, Variant};
    ///
    /// assert!(Variant::new("rozaj").is_ok());
    /// assert_eq!(Variant::new("roza"), Err(InvalidVariant("roza")));
    /// ```
    #[inline]
    pub fn new(text: &'a str) -> Result<Variant<'a>, InvalidVariant<&'a str>> {
        if !is_variant(text.as_bytes()) {
            return Err(InvalidVariant(text));
        }
        Ok(Variant::from_checked(text))
    }

    /// Wraps a string that is known to be a variant, without checking it.
    /// `Variant::from_checked(variant.as_str())` is equal to `variant`.
    #[inline]
    pub(crate) fn from_checked(text: &'a str) -> Variant<'a> {
        Variant {
            text: Caseless(text),
        }
    }

    /// Returns the string, in its original case.
    ///
    /// ```
    /// # fn main() -> Result<(), Box<dyn std::error::Error>> {
    /// use langtag::Variant;
    ///
    /// assert_eq!(Variant::new("ROZAJ")?.as_str(), "ROZAJ");
    /// # Ok(())
    /// # }
    /// ```
    #[inline]
    #[must_use]
    pub const fn as_str(self) -> &'a str {
        self.text.0
    }

    /// Returns the string as bytes.
    ///
    /// ```
    /// # fn main() -> Result<(), Box<dyn std::error::Error>> {
    /// use langtag::Variant;
    ///
    /// assert_eq!(Variant::new("ROZAJ")?.as_bytes(), b"ROZAJ");
    /// # Ok(())
    /// # }
    /// ```
    #[inline]
    #[must_use]
    pub const fn as_bytes(self) -> &'a [u8] {
        self.as_str().as_bytes()
    }

    /// Returns whether another string equals this string, ignoring the case of ASCII letters.
    /// Comparisons and hashes also ignore case.
    ///
    /// ```
    /// # fn main() -> Result<(), Box<dyn std::error::Error>> {
    /// use langtag::Variant;
    ///
    /// assert!(Variant::new("rozaj")?.eq_str("ROZAJ"));
    /// # Ok(())
    /// # }
    /// ```
    #[inline]
    #[must_use]
    pub fn eq_str(self, other: &str) -> bool {
        self.text == Caseless(other)
    }

    /// Copies the string into an owned value.
    ///
    /// # Errors
    ///
    /// Returns an error if allocation fails.
    ///
    /// ```
    /// # fn main() -> Result<(), Box<dyn std::error::Error>> {
    /// use langtag::Variant;
    ///
    /// assert_eq!(Variant::new("ROZAJ")?.try_to_owned()?.as_str(), "ROZAJ");
    /// # Ok(())
    /// # }
    /// ```
    #[cfg(feature = "alloc")]
    #[inline]
    pub fn try_to_owned(self) -> Result<VariantBuf, AllocError> {
        let text = try_string(self.as_str())?;
        Ok(VariantBuf {
            text: Caseless(text),
        })
    }
}

impl fmt::Display for Variant<'_> {
    #[inline]
    fn fmt(&self, f: &mut fmt::Formatter<'_>) -> fmt::Result {
        f.pad(self.as_str())
    }
}

/// A variant that owns its text.
///
/// ```
/// # fn main() -> Result<(), Box<dyn std::error::Error>> {
/// use langtag::Variant;
///
/// let owned = Variant::new("rozaj")?.to_owned();
/// assert!(owned.as_variant() == Variant::new("ROZAJ")?);
/// assert_eq!(owned.into_string().as_str(), "rozaj");
/// # Ok(())
/// # }
/// ```
#[cfg(feature = "alloc")]
#[derive(PartialEq, Eq, PartialOrd, Ord, Hash)]
pub struct VariantBuf {
    text: Caseless<String>,
}

#[cfg(feature = "alloc")]
shown!(VariantBuf);

#[cfg(feature = "alloc")]
impl VariantBuf {
    /// Parses a `String` as a variant and keeps it, without copying.
    ///
    /// # Errors
    ///
    /// Returns the same `String` if it is neither five to eight letters and digits nor a digit
    /// followed by three letters or digits. An example is `roza`.
    ///
    /// ```
    /// # fn main() -> Result<(), Box<dyn std::error::Error>> {
    /// use langtag::VariantBuf;
    /// use std::str::FromStr;
    ///
    /// assert_eq!(VariantBuf::new("rozaj".to_string())?.as_str(), "rozaj");
    /// assert!(VariantBuf::new("roza".to_string()).is_err());
    /// # Ok(())
    /// # }
    /// ```
    #[inline]
    pub fn new(text: String) -> Result<VariantBuf, InvalidVariant<String>> {
        if !is_variant(text.as_bytes()) {
            return Err(InvalidVariant(text));
        }
        Ok(VariantBuf {
            text: Caseless(text),
        })
    }

    /// Borrows the variant.
    ///
    /// ```
    /// # fn main() -> Result<(), Box<dyn std::error::Error>> {
    /// use langtag::Variant;
    ///
    /// assert_eq!(Variant::new("ROZAJ")?.to_owned().as_variant().as_str(), "ROZAJ");
    /// # Ok(())
    /// # }
    /// ```
    #[inline]
    #[must_use]
    pub fn as_variant(&self) -> Variant<'_> {
        Variant::from_checked(self.as_str())
    }

    /// Returns the string, in its original case.
    ///
    /// ```
    /// # fn main() -> Result<(), Box<dyn std::error::Error>> {
    /// use langtag::Variant;
    ///
    /// assert_eq!(Variant::new("ROZAJ")?.to_owned().as_str(), "ROZAJ");
    /// # Ok(())
    /// # }
    /// ```
    #[inline]
    #[must_use]
    pub fn as_str(&self) -> &str {
        self.text.0.as_str()
    }

    /// Returns the `String`, without copying it.
    ///
    /// ```
    /// # fn main() -> Result<(), Box<dyn std::error::Error>> {
    /// use langtag::Variant;
    ///
    /// assert_eq!(Variant::new("ROZAJ")?.to_owned().into_string(), "ROZAJ");
    /// # Ok(())
    /// # }
    /// ```
    #[inline]
    #[must_use]
    pub fn into_string(self) -> String {
        self.text.0
    }
}

#[cfg(feature = "alloc")]
impl fmt::Display for VariantBuf {
    #[inline]
    fn fmt(&self, f: &mut fmt::Formatter<'_>) -> fmt::Result {
        f.pad(self.as_str())
    }
}
