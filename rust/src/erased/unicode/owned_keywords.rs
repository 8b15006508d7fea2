// Generated from crates/langtag_unicode/src/owned_keywords.rt. Do not edit.

//! Setting and removing keywords of a tag that owns its text (RFC 6067 section 2.1).

use crate::erased::keyword::{KeywordEdit, KeywordError};
use crate::erased::tag::{tag_of, LangTagBuf, NormalLangTag};
use crate::erased::unicode::keyword_setters::{keyword_error, put_parts};
use crate::erased::unicode::set_keyword_error::SetKeywordError;
use crate::shim::{try_vec, AllocError};
use alloc::vec::Vec;

/// Sets the value of a key of the extension `u` ([RFC 6067 section 2.1]): with `buddhist` for `ca`,
/// `de-x-a` becomes `de-u-ca-buddhist-x-a`. With an empty value, the key has no value, which means
/// `true`.
///
/// The new string is the one that [`write_with_keyword`](crate::unicode::write_with_keyword)
/// writes. It is allocated once, exactly its length.
///
/// # Errors
///
/// Returns `SetKeywordError::Keyword` if the key or the value cannot be in a keyword, or if the tag
/// is not a normal tag, and `SetKeywordError::Memory` if allocation fails. The tag is then
/// unchanged.
///
/// ```
/// # fn main() -> Result<(), Box<dyn std::error::Error>> {
/// use langtag::erased::tag::LangTag;
/// use langtag::erased::unicode::set_keyword;
///
/// let mut tag = LangTag::new("de-x-a")?.to_owned();
/// set_keyword(&mut tag, "ca", "buddhist")?;
/// assert_eq!(tag.as_str(), "de-u-ca-buddhist-x-a");
/// # Ok(())
/// # }
/// ```
///
/// [RFC 6067 section 2.1]: https://www.rfc-editor.org/rfc/rfc6067#section-2.1
pub fn set_keyword(tag: &mut LangTagBuf, key: &str, value: &str) -> Result<(), SetKeywordError> {
    if let Some(error) = keyword_error(key, value) {
        return Err(SetKeywordError::Keyword(error));
    }
    let value = Some(value);
    apply(tag, KeywordEdit { key, value })
}

/// Removes a key of the extension `u` ([RFC 6067 section 2.1]): without `ca`,
/// `th-u-ca-gregory-nu-thai` becomes `th-u-nu-thai`. Each keyword of the key is removed from the
/// first `u`, and so is this `u` if nothing else is in it.
///
/// It allocates the new string, as [`set_keyword`] does, even if the tag does not have the key.
///
/// # Errors
///
/// Returns `SetKeywordError::Keyword` if the key cannot be in a keyword, or if the tag is not a
/// normal tag, and `SetKeywordError::Memory` if allocation fails. The tag is then unchanged.
///
/// ```
/// # fn main() -> Result<(), Box<dyn std::error::Error>> {
/// use langtag::erased::tag::LangTag;
/// use langtag::erased::unicode::remove_keyword;
///
/// let mut tag = LangTag::new("th-u-ca-gregory-nu-thai")?.to_owned();
/// remove_keyword(&mut tag, "ca")?;
/// assert_eq!(tag.as_str(), "th-u-nu-thai");
/// # Ok(())
/// # }
/// ```
///
/// [RFC 6067 section 2.1]: https://www.rfc-editor.org/rfc/rfc6067#section-2.1
pub fn remove_keyword(tag: &mut LangTagBuf, key: &str) -> Result<(), SetKeywordError> {
    if let Some(error) = keyword_error(key, "") {
        return Err(SetKeywordError::Keyword(error));
    }
    apply(tag, KeywordEdit { key, value: None })
}

/// Applies an edit to a tag. The new string is complete before the old string is dropped.
fn apply(tag: &mut LangTagBuf, edit: KeywordEdit<'_>) -> Result<(), SetKeywordError> {
    let Some(normal) = tag.as_lang_tag().as_normal() else {
        return Err(SetKeywordError::Keyword(KeywordError::NotNormal));
    };
    *tag = edited(normal, edit)?;
    Ok(())
}

/// Returns a normal tag with a keyword set or removed.
#[inline]
fn edited(tag: NormalLangTag<'_>, edit: KeywordEdit<'_>) -> Result<LangTagBuf, AllocError> {
    Ok(tag_of(edited_bytes(tag, edit)?))
}

/// Returns the bytes of a normal tag with a keyword set or removed. It allocates once, exactly the
/// length of the string.
#[inline]
fn edited_bytes(tag: NormalLangTag<'_>, edit: KeywordEdit<'_>) -> Result<Vec<u8>, AllocError> {
    let mut bytes = try_vec(0, put_parts(tag, edit, &mut []))?;
    put_parts(tag, edit, &mut bytes);
    Ok(bytes)
}
