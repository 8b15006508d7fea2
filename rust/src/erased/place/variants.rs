// Generated from crates/langtag_place/src/variants.rt. Do not edit.

//! The variants of a tag as one string (RFC 5646 section 2.2.5).

use crate::erased::place::variant::Variant;
use crate::erased::place::variants_iter::VariantsIter;
use crate::erased::scan::{is_variant, Caseless, Subtags};
#[cfg(feature = "alloc")]
use crate::shim::{try_string, AllocError};
#[cfg(feature = "alloc")]
use alloc::string::String;
use core::fmt;

/// The error for a string that is not a list of variants. It contains the string.
///
/// ```
/// use langtag::Variants;
///
/// let error = Variants::new("rozaj-").err();
/// assert_eq!(error.map(|error| error.0), Some("rozaj-"));
/// ```
#[derive(Debug, Clone, Copy, PartialEq, Eq, Hash)]
pub struct InvalidVariants<T>(pub T);

impl<T: AsRef<[u8]>> fmt::Display for InvalidVariants<T> {
    #[inline]
    fn fmt(&self, f: &mut fmt::Formatter<'_>) -> fmt::Result {
        f.write_str("invalid variants")?;
        crate::message::write_text(f, self.0.as_ref())
    }
}

impl<T: fmt::Debug + AsRef<[u8]>> core::error::Error for InvalidVariants<T> {}

/// The variants of a tag, joined by hyphens ([RFC 5646 section 2.2.5]), such as `rozaj-1994`. The
/// empty string means no variants.
///
/// A variant may occur twice: a tag with such a list is well formed but not valid (section 2.2.9).
/// Two lists of variants are equal if their strings differ only in the case of ASCII letters, such
/// as `rozaj` and `ROZAJ`.
///
/// ```
/// # fn main() -> Result<(), Box<dyn std::error::Error>> {
/// use langtag::Variants;
///
/// let variants = Variants::new("rozaj-1994")?;
/// assert_eq!(variants.as_str(), "rozaj-1994");
/// assert!(variants == Variants::new("ROZAJ-1994")?);
/// # Ok(())
/// # }
/// ```
///
/// [RFC 5646 section 2.2.5]: https://www.rfc-editor.org/rfc/rfc5646#section-2.2.5
#[derive(Clone, Copy, PartialEq, Eq, PartialOrd, Ord, Hash)]
pub struct Variants<'a> {
    text: Caseless<&'a str>,
}

shown!(Variants<'_>);

impl<'a> Variants<'a> {
    /// No variants.
    ///
    /// ```
    /// use langtag::Variants;
    ///
    /// assert_eq!(Variants::EMPTY.as_str(), "");
    /// ```
    pub const EMPTY: Variants<'static> = Variants { text: Caseless("") };

    /// Parses a string as variants: `Variants::new("rozaj-1994")` and `Variants::new("")` are `Ok`.
    ///
    /// # Errors
    ///
    /// Returns the string if it is not a list of variants joined by hyphens.
    ///
    /// ```
    /// use langtag::{InvalidVariants, Variants};
    ///
    /// assert_eq!(Variants::new("rozaj-"), Err(InvalidVariants("rozaj-")));
    /// ```
    #[inline]
    pub fn new(text: &'a str) -> Result<Variants<'a>, InvalidVariants<&'a str>> {
        if !all_variants(text) {
            return Err(InvalidVariants(text));
        }
        Ok(Variants::from_checked(text))
    }

    /// Wraps a string that is known to be a list of variants, without checking it.
    /// `Variants::from_checked(variants.as_str())` is equal to `variants`.
    #[inline]
    pub(crate) fn from_checked(text: &'a str) -> Variants<'a> {
        Variants {
            text: Caseless(text),
        }
    }

    /// Returns the string, in its original case.
    ///
    /// ```
    /// # fn main() -> Result<(), Box<dyn std::error::Error>> {
    /// use langtag::Variants;
    ///
    /// assert_eq!(Variants::new("ROZAJ-1994")?.as_str(), "ROZAJ-1994");
    /// # Ok(())
    /// # }
    /// ```
    #[inline]
    #[must_use]
    pub const fn as_str(self) -> &'a str {
        self.text.0
    }

    /// Returns the string as bytes.
    ///
    /// ```
    /// # fn main() -> Result<(), Box<dyn std::error::Error>> {
    /// use langtag::Variants;
    ///
    /// assert_eq!(Variants::new("ROZAJ-1994")?.as_bytes(), b"ROZAJ-1994");
    /// # Ok(())
    /// # }
    /// ```
    #[inline]
    #[must_use]
    pub const fn as_bytes(self) -> &'a [u8] {
        self.as_str().as_bytes()
    }

    /// Returns whether another string equals this string, ignoring the case of ASCII letters.
    /// Comparisons and hashes also ignore case.
    ///
    /// ```
    /// # fn main() -> Result<(), Box<dyn std::error::Error>> {
    /// use langtag::Variants;
    ///
    /// assert!(Variants::new("rozaj")?.eq_str("ROZAJ"));
    /// # Ok(())
    /// # }
    /// ```
    #[inline]
    #[must_use]
    pub fn eq_str(self, other: &str) -> bool {
        self.text == Caseless(other)
    }

    /// Copies the string into an owned value.
    ///
    /// # Errors
    ///
    /// Returns an error if allocation fails.
    ///
    /// ```
    /// # fn main() -> Result<(), Box<dyn std::error::Error>> {
    /// use langtag::Variants;
    ///
    /// assert_eq!(Variants::new("ROZAJ")?.try_to_owned()?.as_str(), "ROZAJ");
    /// # Ok(())
    /// # }
    /// ```
    #[cfg(feature = "alloc")]
    #[inline]
    pub fn try_to_owned(self) -> Result<VariantsBuf, AllocError> {
        let text = try_string(self.as_str())?;
        Ok(VariantsBuf {
            text: Caseless(text),
        })
    }

    /// Returns an iterator over the variants, from either end: `rozaj` and `1994` for `rozaj-1994`.
    ///
    /// ```
    /// # fn main() -> Result<(), Box<dyn std::error::Error>> {
    /// use langtag::Variants;
    ///
    /// let mut variants = Variants::new("rozaj-1994")?.iter();
    /// assert_eq!(variants.next().map(|variant| variant.as_str()), Some("rozaj"));
    /// assert_eq!(variants.next_back().map(|variant| variant.as_str()), Some("1994"));
    /// # Ok(())
    /// # }
    /// ```
    #[inline]
    #[must_use]
    pub fn iter(self) -> VariantsIter<'a> {
        VariantsIter::new(self.as_str())
    }

    /// Returns the first variant, if there is one: `rozaj` for `rozaj-1994`, `None` for the empty
    /// string.
    ///
    /// ```
    /// # fn main() -> Result<(), Box<dyn std::error::Error>> {
    /// use langtag::Variants;
    ///
    /// assert_eq!(
    ///     Variants::new("rozaj-1994")?.first().map(|variant| variant.as_str()),
    ///     Some("rozaj")
    /// );
    /// # Ok(())
    /// # }
    /// ```
    #[inline]
    #[must_use]
    pub fn first(self) -> Option<Variant<'a>> {
        self.iter().next()
    }

    /// Returns the last variant, if there is one: `1994` for `rozaj-1994`.
    ///
    /// ```
    /// # fn main() -> Result<(), Box<dyn std::error::Error>> {
    /// use langtag::Variants;
    ///
    /// assert_eq!(
    ///     Variants::new("rozaj-1994")?.last().map(|variant| variant.as_str()),
    ///     Some("1994")
    /// );
    /// # Ok(())
    /// # }
    /// ```
    #[inline]
    #[must_use]
    pub fn last(self) -> Option<Variant<'a>> {
        self.iter().next_back()
    }
}

impl Default for Variants<'_> {
    #[inline]
    fn default() -> Self {
        Variants::EMPTY
    }
}

impl fmt::Display for Variants<'_> {
    #[inline]
    fn fmt(&self, f: &mut fmt::Formatter<'_>) -> fmt::Result {
        f.pad(self.as_str())
    }
}

/// Variants that own their text.
///
/// ```
/// # fn main() -> Result<(), Box<dyn std::error::Error>> {
/// use langtag::Variants;
///
/// let owned = Variants::new("rozaj-1994")?.to_owned();
/// assert!(owned.as_variants() == Variants::new("ROZAJ-1994")?);
/// assert_eq!(owned.into_string().as_str(), "rozaj-1994");
/// # Ok(())
/// # }
/// ```
#[cfg(feature = "alloc")]
#[derive(PartialEq, Eq, PartialOrd, Ord, Hash)]
pub struct VariantsBuf {
    text: Caseless<String>,
}

#[cfg(feature = "alloc")]
shown!(VariantsBuf);

#[cfg(feature = "alloc")]
impl VariantsBuf {
    /// Parses a `String` as variants and keeps it, without copying.
    ///
    /// # Errors
    ///
    /// Returns the same `String` if it is not a list of variants joined by hyphens, such as
    /// `rozaj-`.
    ///
    /// ```
    /// # fn main() -> Result<(), Box<dyn std::error::Error>> {
    /// use langtag::VariantsBuf;
    /// use std::str::FromStr;
    ///
    /// assert_eq!(VariantsBuf::new("rozaj-1994".to_string())?.as_str(), "rozaj-1994");
    /// assert!(VariantsBuf::new("rozaj-".to_string()).is_err());
    /// # Ok(())
    /// # }
    /// ```
    #[inline]
    pub fn new(text: String) -> Result<VariantsBuf, InvalidVariants<String>> {
        if !all_variants(text.as_str()) {
            return Err(InvalidVariants(text));
        }
        Ok(VariantsBuf {
            text: Caseless(text),
        })
    }

    /// Borrows the variants.
    ///
    /// ```
    /// # fn main() -> Result<(), Box<dyn std::error::Error>> {
    /// use langtag::Variants;
    ///
    /// assert_eq!(Variants::new("ROZAJ")?.to_owned().as_variants().as_str(), "ROZAJ");
    /// # Ok(())
    /// # }
    /// ```
    #[inline]
    #[must_use]
    pub fn as_variants(&self) -> Variants<'_> {
        Variants::from_checked(self.as_str())
    }

    /// Returns the string, in its original case.
    ///
    /// ```
    /// # fn main() -> Result<(), Box<dyn std::error::Error>> {
    /// use langtag::Variants;
    ///
    /// assert_eq!(Variants::new("ROZAJ")?.to_owned().as_str(), "ROZAJ");
    /// # Ok(())
    /// # }
    /// ```
    #[inline]
    #[must_use]
    pub fn as_str(&self) -> &str {
        self.text.0.as_str()
    }

    /// Returns the `String`, without copying it.
    ///
    /// ```
    /// # fn main() -> Result<(), Box<dyn std::error::Error>> {
    /// use langtag::Variants;
    ///
    /// assert_eq!(Variants::new("ROZAJ")?.to_owned().into_string(), "ROZAJ");
    /// # Ok(())
    /// # }
    /// ```
    #[inline]
    #[must_use]
    pub fn into_string(self) -> String {
        self.text.0
    }
}

#[cfg(feature = "alloc")]
impl fmt::Display for VariantsBuf {
    #[inline]
    fn fmt(&self, f: &mut fmt::Formatter<'_>) -> fmt::Result {
        f.pad(self.as_str())
    }
}

/// Returns whether a string is empty or a list of variants joined by hyphens.
#[inline]
fn all_variants(text: &str) -> bool {
    Subtags::new(text).all(|subtag| is_variant(subtag.as_bytes()))
}
