// Generated from crates/langtag/src/private_use_lang_tag.rt. Do not edit.

//! Private-use tags (RFC 5646 section 2.2.7).
use crate::erased::private::PrivateUse;
#[cfg(feature = "alloc")]
use crate::erased::private::PrivateUseBuf;

/// A private-use tag, such as `x-fr-CH`. Its whole string is a private use part.
///
/// ```
/// # fn main() -> Result<(), Box<dyn std::error::Error>> {
/// use langtag::PrivateUseLangTag;
///
/// assert_eq!(PrivateUseLangTag::new("x-fr-CH")?.iter().count(), 2);
/// # Ok(())
/// # }
/// ```
pub type PrivateUseLangTag<'a> = PrivateUse<'a>;

/// A private-use tag that owns its text.
///
/// ```
/// # fn main() -> Result<(), Box<dyn std::error::Error>> {
/// use langtag::{PrivateUseLangTag, PrivateUseLangTagBuf};
///
/// let owned: PrivateUseLangTagBuf = PrivateUseLangTag::new("x-fr-CH")?.to_owned();
/// assert_eq!(owned.as_str(), "x-fr-CH");
/// # Ok(())
/// # }
/// ```
#[cfg(feature = "alloc")]
pub type PrivateUseLangTagBuf = PrivateUseBuf;
