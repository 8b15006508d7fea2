// Generated from crates/langtag_extension/src/singleton.rt. Do not edit.

//! The singleton, which begins an extension (RFC 5646 section 2.2.6).

use crate::erased::scan::is_singleton;
use core::fmt;

/// The error for a byte, character or text that is not a singleton. It contains what was given.
///
/// ```
/// use langtag::Singleton;
///
/// assert_eq!(Singleton::new(b'x').err().map(|error| error.0), Some(b'x'));
/// ```
#[derive(Debug, Clone, Copy, PartialEq, Eq, Hash)]
pub struct InvalidSingleton<T>(pub T);

impl<T> fmt::Display for InvalidSingleton<T> {
    #[inline]
    fn fmt(&self, f: &mut fmt::Formatter<'_>) -> fmt::Result {
        f.write_str("invalid extension identifier")
    }
}

impl<T: fmt::Debug> core::error::Error for InvalidSingleton<T> {}

/// The letter or digit, other than `x` and `X`, that begins an extension ([RFC 5646 section
/// 2.2.6]), such as `u` in `u-co-phonebk`.
///
/// It stores the exact byte, and compares and hashes by that byte: `u` and `U` begin the same
/// extension, but are different singletons.
///
/// ```
/// # fn main() -> Result<(), Box<dyn std::error::Error>> {
/// use langtag::Singleton;
///
/// assert_eq!(Singleton::new(b'u')?.unwrap(), b'u');
/// assert!(!(Singleton::from_string("u")? == Singleton::new(b'U')?));
/// # Ok(())
/// # }
/// ```
///
/// [RFC 5646 section 2.2.6]: https://www.rfc-editor.org/rfc/rfc5646#section-2.2.6
#[derive(Clone, Copy, PartialEq, Eq, PartialOrd, Ord, Hash)]
pub struct Singleton {
    byte: u8,
}

impl Singleton {
    /// Returns the singleton for a byte. Singletons compare and hash by their exact bytes.
    ///
    /// # Errors
    ///
    /// Returns the byte if it is not an ASCII letter or digit, or is `x` or `X`.
    ///
    /// ```
    /// use langtag::{InvalidSingleton, Singleton};
    ///
    /// assert!(Singleton::new(b'u').is_ok());
    /// assert_eq!(Singleton::new(b'x'), Err(InvalidSingleton(b'x')));
    /// ```
    #[inline]
    pub fn new(c: u8) -> Result<Self, InvalidSingleton<u8>> {
        if !is_singleton(c) {
            return Err(InvalidSingleton(c));
        }
        Ok(Singleton { byte: c })
    }

    /// Wraps a byte that is known to be a singleton, without checking it.
    #[inline]
    pub(crate) fn from_checked(byte: u8) -> Self {
        Singleton { byte }
    }

    /// Returns the singleton for a string of one byte.
    ///
    /// # Errors
    ///
    /// Returns the string if it is not one byte, or if that byte is not a singleton.
    ///
    /// ```
    /// use langtag::{InvalidSingleton, Singleton};
    ///
    /// assert!(Singleton::from_string("u").is_ok());
    /// assert_eq!(Singleton::from_string("uu"), Err(InvalidSingleton("uu")));
    /// ```
    #[inline]
    pub fn from_string(str: &str) -> Result<Self, InvalidSingleton<&str>> {
        if let [c] = str.as_bytes() {
            if let Ok(singleton) = Singleton::new(*c) {
                return Ok(singleton);
            }
        }
        Err(InvalidSingleton(str))
    }

    /// Returns the byte, in its original case.
    ///
    /// ```
    /// # fn main() -> Result<(), Box<dyn std::error::Error>> {
    /// use langtag::Singleton;
    ///
    /// assert_eq!(Singleton::new(b'U')?.unwrap(), b'U');
    /// # Ok(())
    /// # }
    /// ```
    #[inline]
    #[must_use]
    pub fn unwrap(self) -> u8 {
        self.byte
    }
}

impl TryFrom<u8> for Singleton {
    type Error = InvalidSingleton<u8>;

    #[inline]
    fn try_from(c: u8) -> Result<Self, InvalidSingleton<u8>> {
        Singleton::new(c)
    }
}

impl TryFrom<char> for Singleton {
    type Error = InvalidSingleton<char>;

    #[inline]
    fn try_from(c: char) -> Result<Self, InvalidSingleton<char>> {
        if !c.is_ascii() {
            return Err(InvalidSingleton(c));
        }
        match Singleton::new(c as u8) {
            Ok(singleton) => Ok(singleton),
            Err(_) => Err(InvalidSingleton(c)),
        }
    }
}

impl fmt::Display for Singleton {
    #[inline]
    fn fmt(&self, f: &mut fmt::Formatter<'_>) -> fmt::Result {
        f.pad((self.byte as char).encode_utf8(&mut [0; 4]))
    }
}
