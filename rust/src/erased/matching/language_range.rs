// Generated from crates/langtag_match/src/language_range.rt. Do not edit.

//! Language ranges (RFC 4647 section 2), borrowed and owned.

use crate::erased::matching::fallbacks::Fallbacks;
use crate::erased::range::{is_basic_range, is_language_range, matches_basic, matches_extended};
use crate::erased::scan::Caseless;
use crate::erased::tag::LangTag;
#[cfg(feature = "alloc")]
use crate::shim::{try_string, AllocError};
#[cfg(feature = "alloc")]
use alloc::string::String;
use core::fmt;

/// The error for a string that is not a language range. It contains the string.
///
/// ```
/// use langtag::matching::LanguageRange;
///
/// assert_eq!(LanguageRange::new("de_CH").err().map(|error| error.0), Some("de_CH"));
/// ```
#[derive(Debug, Clone, Copy, PartialEq, Eq, Hash)]
pub struct InvalidLanguageRange<T>(pub T);

impl<T: AsRef<[u8]>> fmt::Display for InvalidLanguageRange<T> {
    #[inline]
    fn fmt(&self, f: &mut fmt::Formatter<'_>) -> fmt::Result {
        f.write_str("invalid language range")?;
        crate::message::write_text(f, self.0.as_ref())
    }
}

impl<T: fmt::Debug + AsRef<[u8]>> core::error::Error for InvalidLanguageRange<T> {}

/// A language range, basic or extended (RFC 4647 sections 2.1 and 2.2): `de-CH`, `*`, `*-CH`,
/// `de-*-DE`.
///
/// A range has one or more subtags. Each subtag is `*`, or one to eight letters and digits. The
/// first subtag has no digits. A range need not be a tag: `de-x` and `a-1` are ranges. Two ranges
/// are equal if their strings differ only in the case of ASCII letters.
///
/// ```
/// # fn main() -> Result<(), Box<dyn std::error::Error>> {
/// use langtag::LangTag;
/// use langtag::matching::LanguageRange;
///
/// let range = LanguageRange::new("de-*-DE")?;
/// assert!(range.matches_extended(&LangTag::new("de-Latn-DE-1996")?));
/// assert!(!range.matches_basic(&LangTag::new("de-Latn-DE-1996")?));
/// # Ok(())
/// # }
/// ```
#[derive(Clone, Copy, PartialEq, Eq, PartialOrd, Ord, Hash)]
pub struct LanguageRange<'a> {
    text: Caseless<&'a str>,
}

shown!(LanguageRange<'_>);

impl<'a> LanguageRange<'a> {
    /// Parses a string as a range.
    ///
    /// # Errors
    ///
    /// Returns the string if it is not a range.
    ///
    /// ```
    /// use langtag::matching::{InvalidLanguageRange, LanguageRange};
    ///
    /// assert!(LanguageRange::new("de-*-DE").is_ok());
    /// assert_eq!(LanguageRange::new("de_DE"), Err(InvalidLanguageRange("de_DE")));
    /// ```
    #[inline]
    pub fn new(text: &'a str) -> Result<LanguageRange<'a>, InvalidLanguageRange<&'a str>> {
        if !is_language_range(text) {
            return Err(InvalidLanguageRange(text));
        }
        Ok(LanguageRange::from_checked(text))
    }

    /// Wraps a string that is known to be a language range, without checking it.
    /// `LanguageRange::from_checked(range.as_str())` is equal to `range`.
    #[inline]
    pub(crate) fn from_checked(text: &'a str) -> LanguageRange<'a> {
        LanguageRange {
            text: Caseless(text),
        }
    }

    /// Returns the string, in its original case.
    ///
    /// ```
    /// # fn main() -> Result<(), Box<dyn std::error::Error>> {
    /// use langtag::matching::LanguageRange;
    ///
    /// assert_eq!(LanguageRange::new("de-ch")?.as_str(), "de-ch");
    /// # Ok(())
    /// # }
    /// ```
    #[inline]
    #[must_use]
    pub fn as_str(self) -> &'a str {
        self.text.0
    }

    /// Returns whether another string equals this string, ignoring the case of ASCII letters.
    /// Comparisons and hashes also ignore case.
    ///
    /// ```
    /// # fn main() -> Result<(), Box<dyn std::error::Error>> {
    /// use langtag::matching::LanguageRange;
    ///
    /// assert!(LanguageRange::new("de-CH")?.eq_str("DE-ch"));
    /// # Ok(())
    /// # }
    /// ```
    #[inline]
    #[must_use]
    pub fn eq_str(self, other: &str) -> bool {
        self.text == Caseless(other)
    }

    /// Returns whether the range is a basic range ([RFC 4647 section 2.1]): `true` for `de-CH` and
    /// `*`, `false` for `*-CH`.
    ///
    /// ```
    /// # fn main() -> Result<(), Box<dyn std::error::Error>> {
    /// use langtag::matching::LanguageRange;
    ///
    /// assert!(LanguageRange::new("de-CH")?.is_basic());
    /// assert!(!LanguageRange::new("*-CH")?.is_basic());
    /// # Ok(())
    /// # }
    /// ```
    ///
    /// [RFC 4647 section 2.1]: https://www.rfc-editor.org/rfc/rfc4647#section-2.1
    #[inline]
    #[must_use]
    pub fn is_basic(self) -> bool {
        is_basic_range(self.as_str())
    }

    /// Returns whether the range matches a tag by basic filtering ([RFC 4647 section 3.3.1]):
    /// `de-DE` matches `de-DE-1996`, but neither `de-Deva` nor `de-Latn-DE`.
    ///
    /// This method is meant for basic ranges. In other ranges, `*` equals no subtag, so `de-*`
    /// matches nothing.
    ///
    /// ```
    /// # fn main() -> Result<(), Box<dyn std::error::Error>> {
    /// use langtag::LangTag;
    /// use langtag::matching::LanguageRange;
    ///
    /// let range = LanguageRange::new("de-DE")?;
    /// assert!(range.matches_basic(&LangTag::new("de-DE-1996")?));
    /// assert!(!range.matches_basic(&LangTag::new("de-Latn-DE")?));
    /// # Ok(())
    /// # }
    /// ```
    ///
    /// [RFC 4647 section 3.3.1]: https://www.rfc-editor.org/rfc/rfc4647#section-3.3.1
    #[inline]
    pub(crate) fn is_basic_match(self, tag: &LangTag<'_>) -> bool {
        matches_basic(self.as_str(), tag.as_str())
    }

    /// Returns whether the range matches a tag by extended filtering ([RFC 4647 section 3.3.2]):
    /// `de-DE` and `de-*-DE` match `de-Latn-DE-1996`. They do not match `de-x-DE`, because a
    /// singleton is never skipped.
    ///
    /// ```
    /// # fn main() -> Result<(), Box<dyn std::error::Error>> {
    /// use langtag::LangTag;
    /// use langtag::matching::LanguageRange;
    ///
    /// let range = LanguageRange::new("de-DE")?;
    /// assert!(range.matches_extended(&LangTag::new("de-Latn-DE-1996")?));
    /// assert!(!range.matches_extended(&LangTag::new("de-x-DE")?));
    /// # Ok(())
    /// # }
    /// ```
    ///
    /// [RFC 4647 section 3.3.2]: https://www.rfc-editor.org/rfc/rfc4647#section-3.3.2
    #[inline]
    pub(crate) fn is_extended_match(self, tag: &LangTag<'_>) -> bool {
        matches_extended(self.as_str(), tag.as_str())
    }

    /// Returns an iterator over the range and its fallbacks, the longest first ([RFC 4647 section
    /// 3.4]): `zh-Hant-TW`, `zh-Hant` and `zh`. [`look_up`](crate::matching::look_up) tries them in
    /// this order.
    ///
    /// ```
    /// # fn main() -> Result<(), Box<dyn std::error::Error>> {
    /// use langtag::matching::LanguageRange;
    ///
    /// let mut fallbacks = LanguageRange::new("zh-Hant-TW")?.fallbacks();
    /// assert_eq!(fallbacks.next().map(|range| range.as_str()), Some("zh-Hant-TW"));
    /// assert_eq!(fallbacks.next().map(|range| range.as_str()), Some("zh-Hant"));
    /// # Ok(())
    /// # }
    /// ```
    ///
    /// [RFC 4647 section 3.4]: https://www.rfc-editor.org/rfc/rfc4647#section-3.4
    #[inline]
    #[must_use]
    pub fn fallbacks(self) -> Fallbacks<'a> {
        Fallbacks::new(self)
    }

    /// Copies the string into an owned value.
    ///
    /// # Errors
    ///
    /// Returns an error if allocation fails.
    ///
    /// ```
    /// # fn main() -> Result<(), Box<dyn std::error::Error>> {
    /// use langtag::matching::LanguageRange;
    ///
    /// assert_eq!(LanguageRange::new("de-*")?.try_to_owned()?.as_str(), "de-*");
    /// # Ok(())
    /// # }
    /// ```
    #[cfg(feature = "alloc")]
    #[inline]
    pub fn try_to_owned(self) -> Result<LanguageRangeBuf, AllocError> {
        let text = try_string(self.as_str())?;
        Ok(LanguageRangeBuf {
            text: Caseless(text),
        })
    }
}

impl fmt::Display for LanguageRange<'_> {
    #[inline]
    fn fmt(&self, f: &mut fmt::Formatter<'_>) -> fmt::Result {
        f.pad(self.as_str())
    }
}

/// A language range that owns its text.
///
/// ```
/// # fn main() -> Result<(), Box<dyn std::error::Error>> {
/// use langtag::matching::LanguageRange;
///
/// let owned = LanguageRange::new("de-*")?.to_owned();
/// assert!(owned.as_language_range() == LanguageRange::new("DE-*")?);
/// # Ok(())
/// # }
/// ```
#[cfg(feature = "alloc")]
#[derive(PartialEq, Eq, PartialOrd, Ord, Hash)]
pub struct LanguageRangeBuf {
    text: Caseless<String>,
}

#[cfg(feature = "alloc")]
shown!(LanguageRangeBuf);

#[cfg(feature = "alloc")]
impl LanguageRangeBuf {
    /// Parses a `String` as a range and keeps it, without copying.
    ///
    /// # Errors
    ///
    /// Returns the same `String` if it is not a range, such as `de-`.
    ///
    /// ```
    /// # fn main() -> Result<(), Box<dyn std::error::Error>> {
    /// use langtag::matching::LanguageRangeBuf;
    /// use std::str::FromStr;
    ///
    /// assert_eq!(LanguageRangeBuf::new("de-*".to_string())?.as_str(), "de-*");
    /// assert!(LanguageRangeBuf::new("de-".to_string()).is_err());
    /// # Ok(())
    /// # }
    /// ```
    #[inline]
    pub fn new(text: String) -> Result<LanguageRangeBuf, InvalidLanguageRange<String>> {
        if !is_language_range(text.as_str()) {
            return Err(InvalidLanguageRange(text));
        }
        Ok(LanguageRangeBuf {
            text: Caseless(text),
        })
    }

    /// Borrows the range.
    ///
    /// ```
    /// # fn main() -> Result<(), Box<dyn std::error::Error>> {
    /// use langtag::matching::LanguageRange;
    ///
    /// assert!(LanguageRange::new("de")?.to_owned().as_language_range().is_basic());
    /// # Ok(())
    /// # }
    /// ```
    #[inline]
    #[must_use]
    pub fn as_language_range(&self) -> LanguageRange<'_> {
        LanguageRange::from_checked(self.as_str())
    }

    /// Returns the string, in its original case.
    ///
    /// ```
    /// # fn main() -> Result<(), Box<dyn std::error::Error>> {
    /// use langtag::matching::LanguageRange;
    ///
    /// assert_eq!(LanguageRange::new("de-ch")?.to_owned().as_str(), "de-ch");
    /// # Ok(())
    /// # }
    /// ```
    #[inline]
    #[must_use]
    pub fn as_str(&self) -> &str {
        self.text.0.as_str()
    }

    /// Returns the `String`, without copying it.
    ///
    /// ```
    /// # fn main() -> Result<(), Box<dyn std::error::Error>> {
    /// use langtag::matching::LanguageRange;
    ///
    /// assert_eq!(LanguageRange::new("de-ch")?.to_owned().into_string(), "de-ch");
    /// # Ok(())
    /// # }
    /// ```
    #[inline]
    #[must_use]
    pub fn into_string(self) -> String {
        self.text.0
    }
}

#[cfg(feature = "alloc")]
impl fmt::Display for LanguageRangeBuf {
    #[inline]
    fn fmt(&self, f: &mut fmt::Formatter<'_>) -> fmt::Result {
        f.pad(self.as_str())
    }
}
