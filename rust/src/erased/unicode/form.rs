// Generated from crates/langtag_unicode/src/form.rt. Do not edit.

//! The canonical form of a tag's extensions `u` and `t` (UTS #35, part 1, Annex C).

use crate::erased::keyword::push_extensions;
use crate::erased::tag::{push_private_use, LangTag, NormalLangTag};
#[cfg(feature = "alloc")]
use crate::erased::tag::{tag_of, LangTagBuf};
use crate::erased::text::{write_text, Output};
#[cfg(feature = "alloc")]
use crate::shim::{try_vec, AllocError};
#[cfg(feature = "alloc")]
use alloc::vec::Vec;

/// How many bytes longer than its tag a form is expected to be at most. A longer form is right,
/// too, but takes longer.
const SPARE: usize = 32;

/// Returns a tag with its extensions `u` and `t` in canonical form (UTS #35, part 1, Annex C):
/// `en-u-nu-thai-ca-gregory-kn-true` becomes `en-u-ca-gregory-kn-nu-thai`.
///
/// Attributes, keywords and fields are put in alphabetical order, each once and in lowercase. If a
/// key is repeated, its first value counts. Types and subdivisions that CLDR replaces become their
/// replacements. The value `true` is left out of `u`. The variants in the language of `t` are put
/// in alphabetical order.
///
/// All other bytes of the tag stay, and so does a tag without these extensions. Only the first `u`
/// and the first `t` are changed. A `t` that UTS #35 does not allow, such as `t-m0` or `t-zh-yue`,
/// stays as it is. The order of the extensions stays, too; `langtag::erased::registry::canonical`
/// sorts them.
///
/// The time is quadratic in the number of attributes beyond 512, and of variants in the language of
/// `t`. It needs up to 16 KiB of stack.
///
/// # Errors
///
/// Returns an error if allocation fails.
///
/// ```
/// # fn main() -> Result<(), Box<dyn std::error::Error>> {
/// use langtag::erased::tag::LangTag;
/// use langtag::erased::unicode::extensions_form;
///
/// let tag = LangTag::new("en-u-nu-thai-CA-islamicc-kn-true")?;
/// assert_eq!(extensions_form(tag)?.as_str(), "en-u-ca-islamic-civil-kn-nu-thai");
/// assert_eq!(extensions_form(LangTag::new("en-x-true")?)?.as_str(), "en-x-true");
/// # Ok(())
/// # }
/// ```
#[cfg(feature = "alloc")]
#[inline]
pub fn extensions_form(tag: LangTag<'_>) -> Result<LangTagBuf, AllocError> {
    Ok(tag_of(form_bytes(tag)?))
}

/// Returns the bytes of the form. The buffer has a guessed length. If it is too short, the bytes
/// are written again.
#[cfg(feature = "alloc")]
fn form_bytes(tag: LangTag<'_>) -> Result<Vec<u8>, AllocError> {
    let mut bytes = try_vec(0, tag.as_bytes().len().saturating_add(SPARE))?;
    let len = write_extensions_form(tag, &mut bytes);
    if len > bytes.len() {
        return counted_form_bytes(tag);
    }
    bytes.truncate(len);
    Ok(bytes)
}

/// Returns the bytes of the form, which are counted before they are written.
#[cfg(feature = "alloc")]
#[inline]
fn counted_form_bytes(tag: LangTag<'_>) -> Result<Vec<u8>, AllocError> {
    let mut bytes = try_vec(0, write_extensions_form(tag, &mut []))?;
    write_extensions_form(tag, &mut bytes);
    Ok(bytes)
}

/// Writes a tag with its extensions `u` and `t` in canonical form to a buffer, as `extensions_form`
/// returns it, and returns its length in bytes. If the buffer is too short, its bytes are not
/// specified, and the length says how long a buffer must be. It does not allocate.
///
/// ```
/// # fn main() -> Result<(), Box<dyn std::error::Error>> {
/// use langtag::erased::tag::LangTag;
/// use langtag::erased::unicode::write_extensions_form;
///
/// let mut buffer = [0; 16];
/// let length = write_extensions_form(LangTag::new("de-u-kn-true")?, &mut buffer);
/// assert_eq!(buffer.get(..length), Some(&b"de-u-kn"[..]));
/// # Ok(())
/// # }
/// ```
#[inline]
pub fn write_extensions_form(tag: LangTag<'_>, buffer: &mut [u8]) -> usize {
    match tag.as_normal() {
        Some(normal) => put_parts(normal, buffer),
        None => write_text(tag.as_bytes(), buffer),
    }
}

/// Writes as much of a tag with its extensions in canonical form as fits into a buffer, and returns
/// the length of that tag.
fn put_parts(tag: NormalLangTag<'_>, buffer: &mut [u8]) -> usize {
    let mut out = Output::new(buffer);
    push_head(&mut out, tag);
    push_extensions(&mut out, tag.extensions());
    push_private_use(&mut out, tag.private_use());
    out.len()
}

/// Appends the part of a tag before its extensions.
#[inline]
pub(crate) fn push_head(out: &mut Output<'_>, tag: NormalLangTag<'_>) {
    let text = tag.as_str();
    out.push_subtag(&text.as_bytes()[..tag.ends().variants]);
}
