// Generated from crates/langtag_place/src/script.rt. Do not edit.

//! The script subtag (RFC 5646 section 2.2.3).

use crate::erased::scan::{is_script, Caseless};
#[cfg(feature = "alloc")]
use crate::shim::{try_string, AllocError};
#[cfg(feature = "alloc")]
use alloc::string::String;
use core::fmt;

/// The error for a string that is not a script. It contains the string.
///
/// ```
/// use langtag::Script;
///
/// let error = Script::new("Lat").err();
/// assert_eq!(error.map(|error| error.0), Some("Lat"));
/// ```
#[derive(Debug, Clone, Copy, PartialEq, Eq, Hash)]
pub struct InvalidScript<T>(pub T);

impl<T: AsRef<[u8]>> fmt::Display for InvalidScript<T> {
    #[inline]
    fn fmt(&self, f: &mut fmt::Formatter<'_>) -> fmt::Result {
        f.write_str("invalid script")?;
        crate::message::write_text(f, self.0.as_ref())
    }
}

impl<T: fmt::Debug + AsRef<[u8]>> core::error::Error for InvalidScript<T> {}

/// A script subtag ([RFC 5646 section 2.2.3]): four letters, such as `Latn`.
///
/// Two scripts are equal if their strings differ only in the case of ASCII letters, such as `Latn`
/// and `LATN`.
///
/// ```
/// # fn main() -> Result<(), Box<dyn std::error::Error>> {
/// use langtag::Script;
///
/// let script = Script::new("Latn")?;
/// assert_eq!(script.as_str(), "Latn");
/// assert!(script == Script::new("LATN")?);
/// # Ok(())
/// # }
/// ```
///
/// [RFC 5646 section 2.2.3]: https://www.rfc-editor.org/rfc/rfc5646#section-2.2.3
#[derive(Clone, Copy, PartialEq, Eq, PartialOrd, Ord, Hash)]
pub struct Script<'a> {
    text: Caseless<&'a str>,
}

shown!(Script<'_>);

impl<'a> Script<'a> {
    /// Parses a string as a script.
    ///
    /// # Errors
    ///
    /// Returns the string if it is not four letters.
    ///
    /// ```
    /// use langtag::{InvalidScript, Script};
    ///
    /// assert!(Script::new("Latn").is_ok());
    /// assert_eq!(Script::new("Lat"), Err(InvalidScript("Lat")));
    /// ```
    #[inline]
    pub fn new(text: &'a str) -> Result<Script<'a>, InvalidScript<&'a str>> {
        if !is_script(text.as_bytes()) {
            return Err(InvalidScript(text));
        }
        Ok(Script::from_checked(text))
    }

    /// Wraps a string that is known to be a script, without checking it.
    /// `Script::from_checked(script.as_str())` is equal to `script`.
    #[inline]
    pub(crate) const fn from_checked(text: &'a str) -> Script<'a> {
        Script {
            text: Caseless(text),
        }
    }

    /// Returns the string, in its original case.
    ///
    /// ```
    /// # fn main() -> Result<(), Box<dyn std::error::Error>> {
    /// use langtag::Script;
    ///
    /// assert_eq!(Script::new("LATN")?.as_str(), "LATN");
    /// # Ok(())
    /// # }
    /// ```
    #[inline]
    #[must_use]
    pub const fn as_str(self) -> &'a str {
        self.text.0
    }

    /// Returns the string as bytes.
    ///
    /// ```
    /// # fn main() -> Result<(), Box<dyn std::error::Error>> {
    /// use langtag::Script;
    ///
    /// assert_eq!(Script::new("LATN")?.as_bytes(), b"LATN");
    /// # Ok(())
    /// # }
    /// ```
    #[inline]
    #[must_use]
    pub const fn as_bytes(self) -> &'a [u8] {
        self.as_str().as_bytes()
    }

    /// Returns whether another string equals this string, ignoring the case of ASCII letters.
    /// Comparisons and hashes also ignore case.
    ///
    /// ```
    /// # fn main() -> Result<(), Box<dyn std::error::Error>> {
    /// use langtag::Script;
    ///
    /// assert!(Script::new("Latn")?.eq_str("LATN"));
    /// # Ok(())
    /// # }
    /// ```
    #[inline]
    #[must_use]
    pub fn eq_str(self, other: &str) -> bool {
        self.text == Caseless(other)
    }

    /// Copies the string into an owned value.
    ///
    /// # Errors
    ///
    /// Returns an error if allocation fails.
    ///
    /// ```
    /// # fn main() -> Result<(), Box<dyn std::error::Error>> {
    /// use langtag::Script;
    ///
    /// assert_eq!(Script::new("LATN")?.try_to_owned()?.as_str(), "LATN");
    /// # Ok(())
    /// # }
    /// ```
    #[cfg(feature = "alloc")]
    #[inline]
    pub fn try_to_owned(self) -> Result<ScriptBuf, AllocError> {
        let text = try_string(self.as_str())?;
        Ok(ScriptBuf {
            text: Caseless(text),
        })
    }
}

impl fmt::Display for Script<'_> {
    #[inline]
    fn fmt(&self, f: &mut fmt::Formatter<'_>) -> fmt::Result {
        f.pad(self.as_str())
    }
}

/// A script that owns its text.
///
/// ```
/// # fn main() -> Result<(), Box<dyn std::error::Error>> {
/// use langtag::Script;
///
/// let owned = Script::new("Latn")?.to_owned();
/// assert!(owned.as_script() == Script::new("LATN")?);
/// assert_eq!(owned.into_string().as_str(), "Latn");
/// # Ok(())
/// # }
/// ```
#[cfg(feature = "alloc")]
#[derive(PartialEq, Eq, PartialOrd, Ord, Hash)]
pub struct ScriptBuf {
    text: Caseless<String>,
}

#[cfg(feature = "alloc")]
shown!(ScriptBuf);

#[cfg(feature = "alloc")]
impl ScriptBuf {
    /// Parses a `String` as a script and keeps it, without copying.
    ///
    /// # Errors
    ///
    /// Returns the same `String` if it is not four letters, such as `Lat`.
    ///
    /// ```
    /// # fn main() -> Result<(), Box<dyn std::error::Error>> {
    /// use langtag::ScriptBuf;
    /// use std::str::FromStr;
    ///
    /// assert_eq!(ScriptBuf::new("Latn".to_string())?.as_str(), "Latn");
    /// assert!(ScriptBuf::new("Lat".to_string()).is_err());
    /// # Ok(())
    /// # }
    /// ```
    #[inline]
    pub fn new(text: String) -> Result<ScriptBuf, InvalidScript<String>> {
        if !is_script(text.as_bytes()) {
            return Err(InvalidScript(text));
        }
        Ok(ScriptBuf {
            text: Caseless(text),
        })
    }

    /// Borrows the script.
    ///
    /// ```
    /// # fn main() -> Result<(), Box<dyn std::error::Error>> {
    /// use langtag::Script;
    ///
    /// assert_eq!(Script::new("LATN")?.to_owned().as_script().as_str(), "LATN");
    /// # Ok(())
    /// # }
    /// ```
    #[inline]
    #[must_use]
    pub fn as_script(&self) -> Script<'_> {
        Script::from_checked(self.as_str())
    }

    /// Returns the string, in its original case.
    ///
    /// ```
    /// # fn main() -> Result<(), Box<dyn std::error::Error>> {
    /// use langtag::Script;
    ///
    /// assert_eq!(Script::new("LATN")?.to_owned().as_str(), "LATN");
    /// # Ok(())
    /// # }
    /// ```
    #[inline]
    #[must_use]
    pub fn as_str(&self) -> &str {
        self.text.0.as_str()
    }

    /// Returns the `String`, without copying it.
    ///
    /// ```
    /// # fn main() -> Result<(), Box<dyn std::error::Error>> {
    /// use langtag::Script;
    ///
    /// assert_eq!(Script::new("LATN")?.to_owned().into_string(), "LATN");
    /// # Ok(())
    /// # }
    /// ```
    #[inline]
    #[must_use]
    pub fn into_string(self) -> String {
        self.text.0
    }
}

#[cfg(feature = "alloc")]
impl fmt::Display for ScriptBuf {
    #[inline]
    fn fmt(&self, f: &mut fmt::Formatter<'_>) -> fmt::Result {
        f.pad(self.as_str())
    }
}
