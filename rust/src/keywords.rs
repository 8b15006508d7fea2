//! Setting and removing keywords of an owned tag.
use core::fmt;

use alloc::string::String;

use crate::erased::unicode;
use crate::memory::try_string;
use crate::message::Quoted;
use crate::unicode::KeywordError;
use crate::{AllocError, LangTagBuf};

/// The error of [`LangTagBuf::set_keyword`] and [`LangTagBuf::remove_keyword`]. The tag is unchanged.
///
/// ```
/// use langtag::unicode::SetKeywordError;
/// use langtag::LangTagBuf;
///
/// let mut tag: LangTagBuf = "de".parse()?;
/// let error = tag.set_keyword("calendar", "roc").unwrap_err();
/// assert_eq!(error, SetKeywordError::Key("calendar".into()));
/// assert_eq!(error.to_string(), "`calendar` is not a key of the extension u");
/// # Ok::<(), Box<dyn std::error::Error>>(())
/// ```
#[derive(Clone, Debug, PartialEq, Eq, Hash)]
#[non_exhaustive]
pub enum SetKeywordError {
    /// A string that is not a key, as in [`KeywordError::Key`].
    Key(String),
    /// A string that is not a value, and the offset in bytes of its first wrong subtag, as in
    /// [`KeywordError::Value`].
    Value(String, usize),
    /// The tag is not normal, as in [`KeywordError::NotNormal`].
    NotNormal,
    /// Allocation failed.
    Memory(AllocError),
}

impl SetKeywordError {
    fn of(error: unicode::SetKeywordError, key: &str, value: &str) -> SetKeywordError {
        let owned = match error {
            unicode::SetKeywordError::Keyword(KeywordError::Key) => {
                try_string(key).map(SetKeywordError::Key)
            }
            unicode::SetKeywordError::Keyword(KeywordError::Value(offset)) => {
                try_string(value).map(|value| SetKeywordError::Value(value, offset))
            }
            unicode::SetKeywordError::Keyword(KeywordError::NotNormal) => {
                Ok(SetKeywordError::NotNormal)
            }
            unicode::SetKeywordError::Memory(error) => Err(error),
        };
        owned.unwrap_or_else(SetKeywordError::Memory)
    }
}

impl fmt::Display for SetKeywordError {
    fn fmt(&self, f: &mut fmt::Formatter<'_>) -> fmt::Result {
        match self {
            SetKeywordError::Key(key) => {
                let key = Quoted(key.as_bytes());
                write!(f, "{key} is not a key of the extension u")
            }
            SetKeywordError::Value(value, _) => {
                let value = Quoted(value.as_bytes());
                write!(f, "{value} is {}", KeywordError::Value(0))
            }
            SetKeywordError::NotNormal => KeywordError::NotNormal.fmt(f),
            SetKeywordError::Memory(error) => error.fmt(f),
        }
    }
}

impl core::error::Error for SetKeywordError {}

from!([] AllocError => SetKeywordError: error => SetKeywordError::Memory(error));

impl LangTagBuf {
    /// Sets the value of a key of the extension `u`: with `buddhist` for `ca`, `th-TH` becomes
    /// `th-TH-u-ca-buddhist`.
    ///
    /// # Errors
    ///
    /// Returns an error if the key or the value cannot be in a keyword, if the tag is not a normal
    /// tag, or if allocation fails. The tag is then unchanged.
    ///
    /// ```
    /// use langtag::LangTagBuf;
    ///
    /// let mut tag: LangTagBuf = "th-TH".parse()?;
    /// tag.set_keyword("ca", "buddhist")?;
    /// assert_eq!(tag.as_str(), "th-TH-u-ca-buddhist");
    /// # Ok::<(), Box<dyn std::error::Error>>(())
    /// ```
    #[inline]
    pub fn set_keyword(&mut self, key: &str, value: &str) -> Result<(), SetKeywordError> {
        unicode::set_keyword(self, key, value)
            .map_err(|error| SetKeywordError::of(error, key, value))
    }

    /// Removes a key of the extension `u`: without `ca`, `th-TH-u-ca-buddhist` becomes `th-TH`.
    ///
    /// The key and its repetitions are removed from the first `u`. If the `u` is then empty, it is
    /// removed, too. An invalid tag may have a second extension `u`, which then becomes the first, and
    /// may contain the key.
    ///
    /// # Errors
    ///
    /// Returns an error if the key cannot be in a keyword, if the tag is not a normal tag, or if
    /// allocation fails. The tag is then unchanged.
    ///
    /// ```
    /// use langtag::LangTagBuf;
    ///
    /// let mut tag: LangTagBuf = "th-TH-u-ca-buddhist".parse()?;
    /// tag.remove_keyword("ca")?;
    /// assert_eq!(tag.as_str(), "th-TH");
    /// # Ok::<(), Box<dyn std::error::Error>>(())
    /// ```
    #[inline]
    pub fn remove_keyword(&mut self, key: &str) -> Result<(), SetKeywordError> {
        unicode::remove_keyword(self, key).map_err(|error| SetKeywordError::of(error, key, ""))
    }
}
