// Generated from crates/langtag_keyword/src/keyword_error.rt. Do not edit.

//! Why a keyword could not be set.

use core::fmt;

/// The error of [`write_with_keyword`](crate::unicode::write_with_keyword) and
/// [`write_without_keyword`](crate::unicode::write_without_keyword): why a keyword was neither set
/// nor removed.
///
/// ```
/// # fn main() -> Result<(), Box<dyn std::error::Error>> {
/// use langtag::erased::tag::LangTag;
/// use langtag::erased::unicode::{KeywordError, SetKeywordError, set_keyword};
///
/// let mut tag = LangTag::new("de")?.to_owned();
/// assert_eq!(
///     set_keyword(&mut tag, "c4", "roc"),
///     Err(SetKeywordError::Keyword(KeywordError::Key))
/// );
/// assert_eq!(
///     set_keyword(&mut tag, "ca", "roc-c"),
///     Err(SetKeywordError::Keyword(KeywordError::Value(4)))
/// );
/// # Ok(())
/// # }
/// ```
#[derive(Clone, Copy, Debug, PartialEq, Eq, Hash)]
#[non_exhaustive]
pub enum KeywordError {
    /// The key is not a letter or a digit followed by a letter (UTS #35, part 1, `ukey`).
    Key,
    /// At this byte offset, the value has a subtag that does not consist of three to eight letters
    /// or digits (UTS #35, part 1, `uvalue`).
    Value(usize),
    /// The tag is not normal: a tag such as `x-a` or `i-klingon` has no extensions (RFC 5646
    /// section 2.1).
    NotNormal,
}

impl fmt::Display for KeywordError {
    fn fmt(&self, f: &mut fmt::Formatter<'_>) -> fmt::Result {
        match self {
            KeywordError::Key => f.write_str("not a key of the extension u"),
            KeywordError::Value(_) => {
                f.write_str("not a value of a key: a subtag needs three to eight letters or digits")
            }
            KeywordError::NotNormal => f.write_str("not a normal language tag"),
        }
    }
}

impl core::error::Error for KeywordError {}
