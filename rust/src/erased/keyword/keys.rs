// Generated from crates/langtag_keyword/src/keys.rt. Do not edit.

//! Which subtags of an extension are keys.

/// An extension that has keys.
///
/// ```
/// use langtag::erased::unicode::Keys;
///
/// assert!(Keys::Unicode.has(b"ca"));
/// assert!(!Keys::Transform.has(b"ca"));
/// assert!(Keys::Transform.has(b"m0"));
/// ```
#[derive(Clone, Copy, Debug)]
pub enum Keys {
    /// `u`, whose keys have two characters (RFC 6067 section 2.1).
    Unicode,
    /// `t`, whose keys are a letter and a digit (RFC 6497 section 2.2).
    Transform,
}

impl Keys {
    /// Returns whether a subtag is a key of the extension.
    ///
    /// ```
    /// use langtag::erased::keyword::Keys;
    ///
    /// assert!(Keys::Transform.has(b"m0"));
    /// ```
    #[inline]
    #[must_use]
    pub fn has(self, subtag: &[u8]) -> bool {
        match self {
            Keys::Unicode => subtag.len() == 2,
            Keys::Transform => is_field_key(subtag),
        }
    }
}

/// Returns whether a subtag is a letter and a digit.
#[inline]
fn is_field_key(subtag: &[u8]) -> bool {
    match subtag {
        [letter, digit] => letter.is_ascii_alphabetic() && digit.is_ascii_digit(),
        _ => false,
    }
}
