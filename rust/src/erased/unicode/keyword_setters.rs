// Generated from crates/langtag_unicode/src/keyword_setters.rt. Do not edit.

//! Setting and removing keywords (RFC 6067 section 2.1).

use crate::erased::keyword::{
    invalid_type, is_unicode_key, push_edited, KeywordEdit, KeywordError,
};
use crate::erased::tag::{push_private_use, LangTag, NormalLangTag};
use crate::erased::text::Output;
use crate::erased::unicode::form::push_head;

/// Writes a tag with a value of a key of the extension `u` ([RFC 6067 section 2.1]) to a buffer,
/// and returns its length in bytes. With `buddhist` for `ca`, `th-u-ca-gregory-nu-thai` becomes
/// `th-u-ca-buddhist-nu-thai`, and `de` becomes `de-u-ca-buddhist`. With an empty value, the key
/// has no value, which means `true`.
///
/// A key that the tag already has keeps its position and its case, and its repetitions are removed.
/// A new key is put before the first greater key, and a new extension `u` before the first greater
/// singleton. All other bytes stay.
///
/// If the buffer is too short, it stays unchanged, and the length says how long a buffer must be.
/// The lengths of the tag, the key and the value, and 4 more bytes, are always enough. It does not
/// allocate.
///
/// # Errors
///
/// Returns an error if the key or the value cannot be in a keyword, or if the tag is not a normal
/// tag. The buffer is then unchanged.
///
/// ```
/// # fn main() -> Result<(), Box<dyn std::error::Error>> {
/// use langtag::erased::tag::LangTag;
/// use langtag::erased::unicode::write_with_keyword;
///
/// let mut buffer = [0; 32];
/// let length = write_with_keyword(LangTag::new("de-x-a")?, "ca", "buddhist", &mut buffer)?;
/// assert_eq!(buffer.get(..length), Some(&b"de-u-ca-buddhist-x-a"[..]));
/// # Ok(())
/// # }
/// ```
///
/// [RFC 6067 section 2.1]: https://www.rfc-editor.org/rfc/rfc6067#section-2.1
pub fn write_with_keyword(
    tag: LangTag<'_>,
    key: &str,
    value: &str,
    buffer: &mut [u8],
) -> Result<usize, KeywordError> {
    if let Some(error) = keyword_error(key, value) {
        return Err(error);
    }
    let value = Some(value);
    write_edited(tag, KeywordEdit { key, value }, buffer)
}

/// Writes a tag without a key of the extension `u` ([RFC 6067 section 2.1]) to a buffer, and
/// returns its length in bytes: without `ca`, `th-u-ca-gregory-nu-thai` becomes `th-u-nu-thai`.
/// Each keyword of the key is removed from the first `u`, and so is this `u` if nothing else is in
/// it. All other bytes stay.
///
/// If the buffer is too short, it stays unchanged, and the length says how long a buffer must be.
/// The length of the tag is always enough. It does not allocate.
///
/// # Errors
///
/// Returns an error if the key cannot be in a keyword, or if the tag is not a normal tag. The
/// buffer is then unchanged.
///
/// ```
/// # fn main() -> Result<(), Box<dyn std::error::Error>> {
/// use langtag::erased::tag::LangTag;
/// use langtag::erased::unicode::write_without_keyword;
///
/// let mut buffer = [0; 32];
/// let length = write_without_keyword(LangTag::new("de-u-ca-buddhist-x-a")?, "ca", &mut buffer)?;
/// assert_eq!(buffer.get(..length), Some(&b"de-x-a"[..]));
/// # Ok(())
/// # }
/// ```
///
/// [RFC 6067 section 2.1]: https://www.rfc-editor.org/rfc/rfc6067#section-2.1
#[inline]
pub fn write_without_keyword(
    tag: LangTag<'_>,
    key: &str,
    buffer: &mut [u8],
) -> Result<usize, KeywordError> {
    if let Some(error) = keyword_error(key, "") {
        return Err(error);
    }
    write_edited(tag, KeywordEdit { key, value: None }, buffer)
}

/// Returns why a key and a value cannot be a keyword, or `None` if they can.
#[inline]
pub(crate) fn keyword_error(key: &str, value: &str) -> Option<KeywordError> {
    if !is_unicode_key(key.as_bytes()) {
        return Some(KeywordError::Key);
    }
    Some(KeywordError::Value(invalid_type(value)?))
}

/// Writes a tag with a keyword set or removed.
#[inline]
fn write_edited(
    tag: LangTag<'_>,
    edit: KeywordEdit<'_>,
    buffer: &mut [u8],
) -> Result<usize, KeywordError> {
    match tag.as_normal() {
        Some(normal) => Ok(write_edited_parts(normal, edit, buffer)),
        None => Err(KeywordError::NotNormal),
    }
}

/// Writes a normal tag with a keyword set or removed.
#[inline]
fn write_edited_parts(tag: NormalLangTag<'_>, edit: KeywordEdit<'_>, buffer: &mut [u8]) -> usize {
    let len = put_parts(tag, edit, &mut []);
    if len <= buffer.len() {
        put_parts(tag, edit, buffer);
    }
    len
}

/// Writes as much of a normal tag with a keyword set or removed as fits into a buffer, and returns
/// the full length of that tag.
pub(crate) fn put_parts(tag: NormalLangTag<'_>, edit: KeywordEdit<'_>, buffer: &mut [u8]) -> usize {
    let mut out = Output::new(buffer);
    push_head(&mut out, tag);
    push_edited(&mut out, tag.extensions(), edit);
    push_private_use(&mut out, tag.private_use());
    out.len()
}
