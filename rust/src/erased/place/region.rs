// Generated from crates/langtag_place/src/region.rt. Do not edit.

//! The region subtag (RFC 5646 section 2.2.4).

use crate::erased::scan::{is_region, Caseless};
#[cfg(feature = "alloc")]
use crate::shim::{try_string, AllocError};
#[cfg(feature = "alloc")]
use alloc::string::String;
use core::fmt;

/// The error for a string that is not a region. It contains the string.
///
/// ```
/// use langtag::Region;
///
/// let error = Region::new("fra").err();
/// assert_eq!(error.map(|error| error.0), Some("fra"));
/// ```
#[derive(Debug, Clone, Copy, PartialEq, Eq, Hash)]
pub struct InvalidRegion<T>(pub T);

impl<T: AsRef<[u8]>> fmt::Display for InvalidRegion<T> {
    #[inline]
    fn fmt(&self, f: &mut fmt::Formatter<'_>) -> fmt::Result {
        f.write_str("invalid region")?;
        crate::message::write_text(f, self.0.as_ref())
    }
}

impl<T: fmt::Debug + AsRef<[u8]>> core::error::Error for InvalidRegion<T> {}

/// A region subtag ([RFC 5646 section 2.2.4]): two letters, such as `FR`, or three digits, such as
/// `419`.
///
/// Two regions are equal if their strings differ only in the case of ASCII letters, such as `fr`
/// and `FR`.
///
/// ```
/// # fn main() -> Result<(), Box<dyn std::error::Error>> {
/// use langtag::Region;
///
/// let region = Region::new("fr")?;
/// assert_eq!(region.as_str(), "fr");
/// assert!(region == Region::new("FR")?);
/// # Ok(())
/// # }
/// ```
///
/// [RFC 5646 section 2.2.4]: https://www.rfc-editor.org/rfc/rfc5646#section-2.2.4
#[derive(Clone, Copy, PartialEq, Eq, PartialOrd, Ord, Hash)]
pub struct Region<'a> {
    text: Caseless<&'a str>,
}

shown!(Region<'_>);

impl<'a> Region<'a> {
    /// Parses a string as a region.
    ///
    /// # Errors
    ///
    /// Returns the string if it is neither two letters nor three digits.
    ///
    /// ```
    /// use langtag::{InvalidRegion, Region};
    ///
    /// assert!(Region::new("fr").is_ok());
    /// assert_eq!(Region::new("FR1"), Err(InvalidRegion("FR1")));
    /// ```
    #[inline]
    pub fn new(text: &'a str) -> Result<Region<'a>, InvalidRegion<&'a str>> {
        if !is_region(text.as_bytes()) {
            return Err(InvalidRegion(text));
        }
        Ok(Region::from_checked(text))
    }

    /// Wraps a string that is known to be a region, without checking it.
    /// `Region::from_checked(region.as_str())` is equal to `region`.
    #[inline]
    pub(crate) const fn from_checked(text: &'a str) -> Region<'a> {
        Region {
            text: Caseless(text),
        }
    }

    /// Returns the string, in its original case.
    ///
    /// ```
    /// # fn main() -> Result<(), Box<dyn std::error::Error>> {
    /// use langtag::Region;
    ///
    /// assert_eq!(Region::new("FR")?.as_str(), "FR");
    /// # Ok(())
    /// # }
    /// ```
    #[inline]
    #[must_use]
    pub const fn as_str(self) -> &'a str {
        self.text.0
    }

    /// Returns the string as bytes.
    ///
    /// ```
    /// # fn main() -> Result<(), Box<dyn std::error::Error>> {
    /// use langtag::Region;
    ///
    /// assert_eq!(Region::new("FR")?.as_bytes(), b"FR");
    /// # Ok(())
    /// # }
    /// ```
    #[inline]
    #[must_use]
    pub const fn as_bytes(self) -> &'a [u8] {
        self.as_str().as_bytes()
    }

    /// Returns whether another string equals this string, ignoring the case of ASCII letters.
    /// Comparisons and hashes also ignore case.
    ///
    /// ```
    /// # fn main() -> Result<(), Box<dyn std::error::Error>> {
    /// use langtag::Region;
    ///
    /// assert!(Region::new("fr")?.eq_str("FR"));
    /// # Ok(())
    /// # }
    /// ```
    #[inline]
    #[must_use]
    pub fn eq_str(self, other: &str) -> bool {
        self.text == Caseless(other)
    }

    /// Copies the string into an owned value.
    ///
    /// # Errors
    ///
    /// Returns an error if allocation fails.
    ///
    /// ```
    /// # fn main() -> Result<(), Box<dyn std::error::Error>> {
    /// use langtag::Region;
    ///
    /// assert_eq!(Region::new("FR")?.try_to_owned()?.as_str(), "FR");
    /// # Ok(())
    /// # }
    /// ```
    #[cfg(feature = "alloc")]
    #[inline]
    pub fn try_to_owned(self) -> Result<RegionBuf, AllocError> {
        let text = try_string(self.as_str())?;
        Ok(RegionBuf {
            text: Caseless(text),
        })
    }
}

impl fmt::Display for Region<'_> {
    #[inline]
    fn fmt(&self, f: &mut fmt::Formatter<'_>) -> fmt::Result {
        f.pad(self.as_str())
    }
}

/// A region that owns its text.
///
/// ```
/// # fn main() -> Result<(), Box<dyn std::error::Error>> {
/// use langtag::Region;
///
/// let owned = Region::new("fr")?.to_owned();
/// assert!(owned.as_region() == Region::new("FR")?);
/// assert_eq!(owned.into_string().as_str(), "fr");
/// # Ok(())
/// # }
/// ```
#[cfg(feature = "alloc")]
#[derive(PartialEq, Eq, PartialOrd, Ord, Hash)]
pub struct RegionBuf {
    text: Caseless<String>,
}

#[cfg(feature = "alloc")]
shown!(RegionBuf);

#[cfg(feature = "alloc")]
impl RegionBuf {
    /// Parses a `String` as a region and keeps it, without copying.
    ///
    /// # Errors
    ///
    /// Returns the same `String` if it is neither two letters nor three digits, such as `FR1`.
    ///
    /// ```
    /// # fn main() -> Result<(), Box<dyn std::error::Error>> {
    /// use langtag::RegionBuf;
    /// use std::str::FromStr;
    ///
    /// assert_eq!(RegionBuf::new("fr".to_string())?.as_str(), "fr");
    /// assert!(RegionBuf::new("FR1".to_string()).is_err());
    /// # Ok(())
    /// # }
    /// ```
    #[inline]
    pub fn new(text: String) -> Result<RegionBuf, InvalidRegion<String>> {
        if !is_region(text.as_bytes()) {
            return Err(InvalidRegion(text));
        }
        Ok(RegionBuf {
            text: Caseless(text),
        })
    }

    /// Borrows the region.
    ///
    /// ```
    /// # fn main() -> Result<(), Box<dyn std::error::Error>> {
    /// use langtag::Region;
    ///
    /// assert_eq!(Region::new("FR")?.to_owned().as_region().as_str(), "FR");
    /// # Ok(())
    /// # }
    /// ```
    #[inline]
    #[must_use]
    pub fn as_region(&self) -> Region<'_> {
        Region::from_checked(self.as_str())
    }

    /// Returns the string, in its original case.
    ///
    /// ```
    /// # fn main() -> Result<(), Box<dyn std::error::Error>> {
    /// use langtag::Region;
    ///
    /// assert_eq!(Region::new("FR")?.to_owned().as_str(), "FR");
    /// # Ok(())
    /// # }
    /// ```
    #[inline]
    #[must_use]
    pub fn as_str(&self) -> &str {
        self.text.0.as_str()
    }

    /// Returns the `String`, without copying it.
    ///
    /// ```
    /// # fn main() -> Result<(), Box<dyn std::error::Error>> {
    /// use langtag::Region;
    ///
    /// assert_eq!(Region::new("FR")?.to_owned().into_string(), "FR");
    /// # Ok(())
    /// # }
    /// ```
    #[inline]
    #[must_use]
    pub fn into_string(self) -> String {
        self.text.0
    }
}

#[cfg(feature = "alloc")]
impl fmt::Display for RegionBuf {
    #[inline]
    fn fmt(&self, f: &mut fmt::Formatter<'_>) -> fmt::Result {
        f.pad(self.as_str())
    }
}
