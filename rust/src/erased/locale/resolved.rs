// Generated from crates/langtag_locale/src/resolved.rt. Do not edit.

//! The locale to format with: a tag that was chosen for a range, with the region and the keywords
//! of the range. ICU's `makeResolvedLocale` also copies the script, so that text in Simplified
//! Chinese would be formatted as Traditional Chinese.

use crate::erased::locale::locale_extensions::push_field;
use crate::erased::locale::range_locale::{range_locale, MOST_NAMED};
use crate::erased::locale::resolved_extensions::push_resolved_extensions;
use crate::erased::locale::resolved_fields::{new_region, push_region, script_with};
use crate::erased::locale::wish::Wish;
use crate::erased::tag::{push_private_use, region_field, LangTag, NormalLangTag};
#[cfg(feature = "alloc")]
use crate::erased::tag::{tag_of, LangTagBuf};
use crate::erased::text::{write_text, Output};
#[cfg(feature = "alloc")]
use crate::shim::{try_vec, AllocError};
#[cfg(feature = "alloc")]
use alloc::vec::Vec;

/// Returns the locale to format dates and numbers with, next to text in a tag that was chosen for a
/// range: `en-GB-u-hc-h12` for the range `en-GB-u-hc-h12` and the tag `en`.
///
/// [`write_resolved_locale`] says what comes from the range.
///
/// # Errors
///
/// Returns an error if allocation fails.
///
/// ```
/// # fn main() -> Result<(), Box<dyn std::error::Error>> {
/// use langtag::erased::tag::LangTag;
/// use langtag::erased::locale::resolved_locale;
///
/// let locale = resolved_locale(b"en-GB-u-hc-h12", LangTag::new("en")?)?;
/// assert_eq!(locale.as_str(), "en-GB-u-hc-h12");
/// assert_eq!(resolved_locale(b"zh-HK", LangTag::new("zh-CN")?)?.as_str(), "zh-Hans-HK");
/// # Ok(())
/// # }
/// ```
#[cfg(feature = "alloc")]
pub fn resolved_locale(range: &[u8], tag: LangTag<'_>) -> Result<LangTagBuf, AllocError> {
    let Some(normal) = resolvable(tag) else {
        return tag.try_to_owned();
    };
    let mut room = [0; MOST_NAMED];
    let Some(locale) = range_locale(range, &mut room) else {
        return tag.try_to_owned();
    };
    let wish = Wish::of(locale).for_tag(normal);
    Ok(tag_of(resolved_bytes(wish, normal)?))
}

/// Returns the bytes of a normal tag with what a range asks of it. They are counted before they are
/// written.
#[cfg(feature = "alloc")]
#[inline]
fn resolved_bytes(wish: Wish<'_>, tag: NormalLangTag<'_>) -> Result<Vec<u8>, AllocError> {
    let mut bytes = try_vec(0, put_resolved(wish, tag, &mut []))?;
    put_resolved(wish, tag, &mut bytes);
    Ok(bytes)
}

/// Writes the locale to format dates and numbers with, next to text in a tag that was chosen for a
/// range, and returns its length in bytes: `de-AT` for the range `de-AT` and the tag `de-DE`.
///
/// The region comes from the range, and so do all keywords of `u`, in the form of
/// [`write_locale_form`]. The language, the script, the variants, the attributes, the other
/// extensions and private use are those of the tag, and stay byte for byte.
///
/// - If the script of the tag would not be likely with the new region, it is written: `zh-Hans-HK`
///   for `zh-HK` and `zh-CN`.
/// - If the range has no region, or `ZZ`, or if the language of the tag is `und`, the region of the
///   tag stays.
/// - Other keywords of the tag stay. If the range has a region or the keyword `rg`, the keywords
///   `rg` and `sd` of the tag are
///   removed. Each keyword of the range stands before the first greater key.
/// - A range with `_`, such as `de_AT`, is read as the name of a POSIX locale, and `es-rUS` as
///   Android writes it.
///
/// The tag stays unchanged if it is for private use or grandfathered, or if the range has no form
/// as a Unicode locale identifier, such as `*`.
///
/// If the buffer is too short, its bytes are not specified, and the length says how long a buffer
/// must be. It does not allocate. The time grows with the product of the lengths of the extensions
/// `u`.
///
/// [`write_locale_form`]: crate::unicode::write_locale_form
///
/// ```
/// # fn main() -> Result<(), Box<dyn std::error::Error>> {
/// use langtag::erased::tag::LangTag;
/// use langtag::erased::locale::write_resolved_locale;
///
/// let mut buffer = [0; 16];
/// assert_eq!(write_resolved_locale(b"de_AT", LangTag::new("de-DE")?, &mut buffer), 5);
/// assert_eq!(buffer.get(..5), Some(&b"de-AT"[..]));
/// assert_eq!(write_resolved_locale(b"*", LangTag::new("de")?, &mut buffer), 2);
/// # Ok(())
/// # }
/// ```
pub fn write_resolved_locale(range: &[u8], tag: LangTag<'_>, buffer: &mut [u8]) -> usize {
    let Some(normal) = resolvable(tag) else {
        return write_kept(tag, buffer);
    };
    let mut room = [0; MOST_NAMED];
    match range_locale(range, &mut room) {
        Some(locale) => put_resolved(Wish::of(locale).for_tag(normal), normal, buffer),
        None => write_kept(tag, buffer),
    }
}

/// Writes a tag as it is.
#[inline]
fn write_kept(tag: LangTag<'_>, buffer: &mut [u8]) -> usize {
    write_text(tag.as_bytes(), buffer)
}

/// Returns a tag as a normal tag, unless it is grandfathered.
#[inline]
fn resolvable(tag: LangTag<'_>) -> Option<NormalLangTag<'_>> {
    if tag.is_grandfathered() {
        return None;
    }
    tag.as_normal()
}

/// Writes as much of a normal tag with what a range asks of it as fits into a buffer, and returns
/// its full length.
fn put_resolved(wish: Wish<'_>, tag: NormalLangTag<'_>, buffer: &mut [u8]) -> usize {
    let mut out = Output::new(buffer);
    let region = new_region(tag, wish.region);
    out.push_subtag(tag.language().as_bytes());
    push_field(&mut out, script_with(tag, region));
    push_region(&mut out, region, region_field(tag.region()));
    push_field(&mut out, tag.variants().as_str().as_bytes());
    push_resolved_extensions(&mut out, wish, tag.extensions());
    push_private_use(&mut out, tag.private_use());
    out.len()
}
