//! Unicode's extensions of language tags: the attributes and keywords of `u` (RFC 6067), such as a
//! calendar, and the language and fields of `t` (RFC 6497). Unicode locale identifiers, and their
//! canonical form (UTS #35, part 1).
//!
//! ```
//! use langtag::LangTag;
//!
//! let tag = LangTag::new("ar-u-ca-islamic-civil-nu-latn")?;
//! assert_eq!(tag.keyword("ca"), Some("islamic-civil"));
//! let tag = LangTag::new("und-t-ja-latn-m0-hepburn")?;
//! assert_eq!(tag.transform().unwrap().language(), Some("ja-latn"));
//! # Ok::<(), Box<dyn std::error::Error>>(())
//! ```
use core::fmt;

use crate::erased::{locale, unicode};
use crate::too_short::{written, written_if_any};
use crate::{LangTag, TooShort};

pub use crate::erased::keyword::KeywordError;
pub use crate::erased::unicode::{AttributesIter, KeyValue, KeywordsIter, Transformation};
#[cfg(feature = "alloc")]
pub use crate::keywords::SetKeywordError;

writer! {
    unicode in unicode: write_extensions_form of "LangTag::extensions_form" -> &'b str, written;
    "a tag with the canonical form of its extensions";
    "en-u-nu-thai-ca-gregory-kn-true" is "en-u-ca-gregory-kn-nu-thai"
}

/// Returns whether a tag is a Unicode locale identifier (UTS #35, part 1).
///
/// ```
/// use langtag::unicode::is_locale;
/// use langtag::LangTag;
///
/// assert!(is_locale(LangTag::new("de-Latn-u-co-phonebk")?));
/// assert!(!is_locale(LangTag::new("zh-yue")?));
/// # Ok::<(), Box<dyn std::error::Error>>(())
/// ```
#[must_use]
pub fn is_locale<'a>(tag: impl Into<LangTag<'a>>) -> bool {
    locale::is_locale(tag.into())
}

writer! {
    locale in unicode: write_locale_form of "LangTag::locale_form" -> Option<&'b str>, written_if_any;
    "the canonical form of a tag as a Unicode locale identifier",
    ", or `None` if the tag has no such form"; "ger-UK" is "de-GB", ".unwrap()"
}

/// Sets the value of a key of the extension `u`, as `LangTagBuf::set_keyword` does, and writes the
/// tag to a buffer. Returns what was written.
///
/// It does not allocate. The lengths of the tag, the key and the value, and 4 more bytes, are
/// always enough.
///
/// # Errors
///
/// Returns an error if the key or the value cannot be in a keyword, if the tag is not a normal tag,
/// or if the buffer is too short.
///
/// ```
/// use langtag::unicode::write_with_keyword;
/// use langtag::LangTag;
///
/// let tag = LangTag::new("de-x-a")?;
/// let text = write_with_keyword(tag, "ca", "buddhist", &mut [0; 32])?.to_string();
/// assert_eq!(text, "de-u-ca-buddhist-x-a");
/// # Ok::<(), Box<dyn std::error::Error>>(())
/// ```
pub fn write_with_keyword<'a, 'b>(
    tag: impl Into<LangTag<'a>>,
    key: &str,
    value: &str,
    buffer: &'b mut [u8],
) -> Result<&'b str, WriteKeywordError> {
    let len = unicode::write_with_keyword(tag.into(), key, value, buffer)?;
    Ok(written(buffer, len)?)
}

/// Removes a key of the extension `u`, as `LangTagBuf::remove_keyword` does, and writes the tag to a
/// buffer. Returns what was written.
///
/// It does not allocate. The length of the tag is always enough.
///
/// # Errors
///
/// Returns an error if the key cannot be in a keyword, if the tag is not a normal tag, or if the
/// buffer is too short.
///
/// ```
/// use langtag::unicode::write_without_keyword;
/// use langtag::LangTag;
///
/// let tag = LangTag::new("th-u-ca-gregory-nu-thai")?;
/// assert_eq!(write_without_keyword(tag, "ca", &mut [0; 32])?, "th-u-nu-thai");
/// # Ok::<(), Box<dyn std::error::Error>>(())
/// ```
pub fn write_without_keyword<'a, 'b>(
    tag: impl Into<LangTag<'a>>,
    key: &str,
    buffer: &'b mut [u8],
) -> Result<&'b str, WriteKeywordError> {
    let len = unicode::write_without_keyword(tag.into(), key, buffer)?;
    Ok(written(buffer, len)?)
}

/// The error of [`write_with_keyword`] and [`write_without_keyword`].
///
/// The buffer is unchanged.
///
/// ```
/// use langtag::unicode::{write_with_keyword, KeywordError, WriteKeywordError};
/// use langtag::LangTag;
///
/// let tag = LangTag::new("de")?;
/// let error = write_with_keyword(tag, "calendar", "roc", &mut [0; 32]).unwrap_err();
/// assert_eq!(error, WriteKeywordError::Keyword(KeywordError::Key));
/// let error = write_with_keyword(tag, "ca", "roc", &mut []).unwrap_err();
/// assert_eq!(error.to_string(), "buffer is too short: a length of 11 is needed");
/// # Ok::<(), Box<dyn std::error::Error>>(())
/// ```
#[derive(Clone, Copy, Debug, PartialEq, Eq, Hash)]
#[non_exhaustive]
pub enum WriteKeywordError {
    /// The key, the value or the tag does not allow the keyword.
    Keyword(KeywordError),
    /// The buffer is too short.
    TooShort(TooShort),
}

impl fmt::Display for WriteKeywordError {
    fn fmt(&self, f: &mut fmt::Formatter<'_>) -> fmt::Result {
        match self {
            WriteKeywordError::Keyword(error) => error.fmt(f),
            WriteKeywordError::TooShort(error) => error.fmt(f),
        }
    }
}

impl core::error::Error for WriteKeywordError {}

from!([] KeywordError => WriteKeywordError: error => WriteKeywordError::Keyword(error));
from!([] TooShort => WriteKeywordError: error => WriteKeywordError::TooShort(error));
