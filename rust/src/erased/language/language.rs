// Generated from crates/langtag_language/src/language.rt. Do not edit.

//! The language of a tag (RFC 5646 sections 2.2.1 and 2.2.2).

use crate::erased::language::extended_subtags::are_extended_within;
use crate::erased::language::language_extension::LanguageExtension;
use crate::erased::language::language_extension_iter::LanguageExtensionIter;
use crate::erased::language::primary_language::PrimaryLanguage;
use crate::erased::scan::{is_primary, segment_end, Caseless, Subtags};
#[cfg(feature = "alloc")]
use crate::shim::{try_string, AllocError};
#[cfg(feature = "alloc")]
use alloc::string::String;
use core::fmt;

/// The error for a string that is not a language. It contains the string.
///
/// ```
/// use langtag::Language;
///
/// let error = Language::new("zh_yue").err();
/// assert_eq!(error.map(|error| error.0), Some("zh_yue"));
/// ```
#[derive(Debug, Clone, Copy, PartialEq, Eq, Hash)]
pub struct InvalidLanguage<T>(pub T);

impl<T: AsRef<[u8]>> fmt::Display for InvalidLanguage<T> {
    #[inline]
    fn fmt(&self, f: &mut fmt::Formatter<'_>) -> fmt::Result {
        f.write_str("invalid language")?;
        crate::message::write_text(f, self.0.as_ref())
    }
}

impl<T: fmt::Debug + AsRef<[u8]>> core::error::Error for InvalidLanguage<T> {}

/// The language of a tag: a primary subtag ([RFC 5646 section 2.2.1]), such as `fr`, and up to
/// three extended subtags (section 2.2.2), as in `zh-min-nan`. Extended subtags follow only a
/// primary subtag of two or three letters.
///
/// Two languages are equal if their strings differ only in the case of ASCII letters, such as
/// `zh-yue` and `ZH-YUE`.
///
/// ```
/// # fn main() -> Result<(), Box<dyn std::error::Error>> {
/// use langtag::Language;
///
/// let language = Language::new("zh-yue")?;
/// assert_eq!(language.as_str(), "zh-yue");
/// assert!(language == Language::new("ZH-YUE")?);
/// # Ok(())
/// # }
/// ```
///
/// [RFC 5646 section 2.2.1]: https://www.rfc-editor.org/rfc/rfc5646#section-2.2.1
#[derive(Clone, Copy, PartialEq, Eq, PartialOrd, Ord, Hash)]
pub struct Language<'a> {
    text: Caseless<&'a str>,
}

shown!(Language<'_>);

impl<'a> Language<'a> {
    /// Parses a string as a language.
    ///
    /// # Errors
    ///
    /// Returns the string if it is not a language.
    ///
    /// ```
    /// use langtag::{InvalidLanguage, Language};
    ///
    /// assert!(Language::new("zh-yue").is_ok());
    /// assert_eq!(Language::new("zh-"), Err(InvalidLanguage("zh-")));
    /// ```
    #[inline]
    pub fn new(text: &'a str) -> Result<Language<'a>, InvalidLanguage<&'a str>> {
        if !is_language(text) {
            return Err(InvalidLanguage(text));
        }
        Ok(Language::from_checked(text))
    }

    /// Wraps a string that is known to be a language, without checking it.
    /// `Language::from_checked(language.as_str())` is equal to `language`.
    #[inline]
    pub(crate) fn from_checked(text: &'a str) -> Language<'a> {
        Language {
            text: Caseless(text),
        }
    }

    /// Returns the string, in its original case.
    ///
    /// ```
    /// # fn main() -> Result<(), Box<dyn std::error::Error>> {
    /// use langtag::Language;
    ///
    /// assert_eq!(Language::new("ZH-YUE")?.as_str(), "ZH-YUE");
    /// # Ok(())
    /// # }
    /// ```
    #[inline]
    #[must_use]
    pub const fn as_str(self) -> &'a str {
        self.text.0
    }

    /// Returns the string as bytes.
    ///
    /// ```
    /// # fn main() -> Result<(), Box<dyn std::error::Error>> {
    /// use langtag::Language;
    ///
    /// assert_eq!(Language::new("ZH-YUE")?.as_bytes(), b"ZH-YUE");
    /// # Ok(())
    /// # }
    /// ```
    #[inline]
    #[must_use]
    pub const fn as_bytes(self) -> &'a [u8] {
        self.as_str().as_bytes()
    }

    /// Returns whether another string equals this string, ignoring the case of ASCII letters.
    /// Comparisons and hashes also ignore case.
    ///
    /// ```
    /// # fn main() -> Result<(), Box<dyn std::error::Error>> {
    /// use langtag::Language;
    ///
    /// assert!(Language::new("zh-yue")?.eq_str("ZH-YUE"));
    /// # Ok(())
    /// # }
    /// ```
    #[inline]
    #[must_use]
    pub fn eq_str(self, other: &str) -> bool {
        self.text == Caseless(other)
    }

    /// Copies the string into an owned value.
    ///
    /// # Errors
    ///
    /// Returns an error if allocation fails.
    ///
    /// ```
    /// # fn main() -> Result<(), Box<dyn std::error::Error>> {
    /// use langtag::Language;
    ///
    /// assert_eq!(Language::new("ZH-YUE")?.try_to_owned()?.as_str(), "ZH-YUE");
    /// # Ok(())
    /// # }
    /// ```
    #[cfg(feature = "alloc")]
    #[inline]
    pub fn try_to_owned(self) -> Result<LanguageBuf, AllocError> {
        let text = try_string(self.as_str())?;
        Ok(LanguageBuf {
            text: Caseless(text),
        })
    }

    /// Returns the primary subtag.
    ///
    /// ```
    /// # fn main() -> Result<(), Box<dyn std::error::Error>> {
    /// use langtag::Language;
    ///
    /// assert_eq!(Language::new("zh-yue")?.primary().as_str(), "zh");
    /// # Ok(())
    /// # }
    /// ```
    #[inline]
    #[must_use]
    pub fn primary(self) -> PrimaryLanguage<'a> {
        self.split().0
    }

    /// Returns the extended subtags as one string, or `None` if there are none: `min-nan` for
    /// `zh-min-nan`.
    ///
    /// ```
    /// # fn main() -> Result<(), Box<dyn std::error::Error>> {
    /// use langtag::Language;
    ///
    /// let extension = Language::new("zh-min-nan")?.extension();
    /// assert_eq!(extension.map(|extension| extension.as_str()), Some("min-nan"));
    /// # Ok(())
    /// # }
    /// ```
    #[inline]
    #[must_use]
    pub fn extension(self) -> Option<LanguageExtension<'a>> {
        self.split().1
    }

    /// Returns an iterator over the extended subtags:
    /// `Language::new("zh-min-nan")?.extension_subtags()` yields `min` and `nan`.
    ///
    /// ```
    /// # fn main() -> Result<(), Box<dyn std::error::Error>> {
    /// use langtag::Language;
    ///
    /// let mut subtags = Language::new("zh-min-nan")?.extension_subtags();
    /// assert_eq!(subtags.next().map(|subtag| subtag.as_str()), Some("min"));
    /// # Ok(())
    /// # }
    /// ```
    #[inline]
    #[must_use]
    pub fn extension_subtags(self) -> LanguageExtensionIter<'a> {
        let (_, extension) = self.split();
        match extension {
            Some(extension) => extension.iter(),
            None => LanguageExtensionIter::empty(),
        }
    }

    /// Returns the primary subtag, and the extension if there is one.
    #[inline]
    fn split(self) -> (PrimaryLanguage<'a>, Option<LanguageExtension<'a>>) {
        let text = self.as_str();
        let end = segment_end(text.as_bytes(), 0);
        if end == text.len() {
            return (PrimaryLanguage::from_checked(text), None);
        }
        let primary = PrimaryLanguage::from_checked(&text[..end]);
        let extension = LanguageExtension::from_checked(&text[end + 1..]);
        (primary, Some(extension))
    }
}

/// Returns whether the string is a language: a primary subtag, and at most three extended subtags,
/// which only a primary subtag of two or three letters may have.
#[inline]
fn is_language(text: &str) -> bool {
    let mut subtags = Subtags::new(text);
    let Some(primary) = subtags.next() else {
        return false;
    };
    let room = if primary.len() <= 3 { 3 } else { 0 };
    is_primary(primary.as_bytes()) && are_extended_within(room, subtags)
}

impl fmt::Display for Language<'_> {
    #[inline]
    fn fmt(&self, f: &mut fmt::Formatter<'_>) -> fmt::Result {
        f.pad(self.as_str())
    }
}

/// A language that owns its text.
///
/// ```
/// # fn main() -> Result<(), Box<dyn std::error::Error>> {
/// use langtag::Language;
///
/// let owned = Language::new("zh-yue")?.to_owned();
/// assert!(owned.as_language() == Language::new("ZH-YUE")?);
/// assert_eq!(owned.into_string().as_str(), "zh-yue");
/// # Ok(())
/// # }
/// ```
#[cfg(feature = "alloc")]
#[derive(PartialEq, Eq, PartialOrd, Ord, Hash)]
pub struct LanguageBuf {
    text: Caseless<String>,
}

#[cfg(feature = "alloc")]
shown!(LanguageBuf);

#[cfg(feature = "alloc")]
impl LanguageBuf {
    /// Parses a `String` as a language and keeps it, without copying.
    ///
    /// # Errors
    ///
    /// Returns the same `String` if it is not a language, such as `zh-`.
    ///
    /// ```
    /// # fn main() -> Result<(), Box<dyn std::error::Error>> {
    /// use langtag::LanguageBuf;
    /// use std::str::FromStr;
    ///
    /// assert_eq!(LanguageBuf::new("zh-yue".to_string())?.as_str(), "zh-yue");
    /// assert!(LanguageBuf::new("zh-".to_string()).is_err());
    /// # Ok(())
    /// # }
    /// ```
    #[inline]
    pub fn new(text: String) -> Result<LanguageBuf, InvalidLanguage<String>> {
        if !is_language(text.as_str()) {
            return Err(InvalidLanguage(text));
        }
        Ok(LanguageBuf {
            text: Caseless(text),
        })
    }

    /// Borrows the language.
    ///
    /// ```
    /// # fn main() -> Result<(), Box<dyn std::error::Error>> {
    /// use langtag::Language;
    ///
    /// assert_eq!(Language::new("ZH-YUE")?.to_owned().as_language().as_str(), "ZH-YUE");
    /// # Ok(())
    /// # }
    /// ```
    #[inline]
    #[must_use]
    pub fn as_language(&self) -> Language<'_> {
        Language::from_checked(self.as_str())
    }

    /// Returns the string, in its original case.
    ///
    /// ```
    /// # fn main() -> Result<(), Box<dyn std::error::Error>> {
    /// use langtag::Language;
    ///
    /// assert_eq!(Language::new("ZH-YUE")?.to_owned().as_str(), "ZH-YUE");
    /// # Ok(())
    /// # }
    /// ```
    #[inline]
    #[must_use]
    pub fn as_str(&self) -> &str {
        self.text.0.as_str()
    }

    /// Returns the `String`, without copying it.
    ///
    /// ```
    /// # fn main() -> Result<(), Box<dyn std::error::Error>> {
    /// use langtag::Language;
    ///
    /// assert_eq!(Language::new("ZH-YUE")?.to_owned().into_string(), "ZH-YUE");
    /// # Ok(())
    /// # }
    /// ```
    #[inline]
    #[must_use]
    pub fn into_string(self) -> String {
        self.text.0
    }
}

#[cfg(feature = "alloc")]
impl fmt::Display for LanguageBuf {
    #[inline]
    fn fmt(&self, f: &mut fmt::Formatter<'_>) -> fmt::Result {
        f.pad(self.as_str())
    }
}
