// Generated from crates/langtag_c/src/likely.rt. Do not edit.

//! The maximal and minimal forms of a tag, in the caller's buffer (UTS #35, part 1, section 'Likely
//! Subtags').

use crate::calls::tag::tag_of;
use crate::erased::likely::{write_maximized, write_minimized, CLDR_VERSION};
use crate::erased::text::write_text;

/// Writes a tag with its likely subtags to `buffer` (UTS #35, part 1, Add Likely Subtags), and
/// returns its length: zh-TW becomes zh-Hant-TW, and en and und become en-Latn-US. The data are
/// those of `langtag_cldr_version`. As with `langtag_canonical`, nothing is written if the buffer
/// is too short.
///
/// ```c
/// char buffer[64];
/// size_t len = langtag_maximized("zh-TW", 5, buffer, sizeof buffer);
/// if (len > 0 && len <= sizeof buffer) printf("%.*s\n", (int)len, buffer); // zh-Hant-TW
/// ```
///
/// The tag's own subtags stay, with their case. Only und, Zzzz and ZZ, which mean that something is
/// unknown, are replaced. Deprecated subtags stay, too, and get the likely subtags of their
/// replacements: iw becomes iw-Hebr-IL, and und-SU becomes ru-Cyrl-SU. To replace them, call
/// `langtag_locale_form` first. A tag without likely subtags, such as x-a or qaa, stays as it is.
///
/// Returns 0 and writes nothing if the string is not a tag.
#[inline]
pub fn langtag_maximized(bytes: &[u8], buffer: &mut [u8]) -> usize {
    match tag_of(bytes) {
        Some(tag) => write_maximized(tag, buffer),
        None => 0,
    }
}

/// Writes a tag without its likely subtags to `buffer` (UTS #35, part 1, Remove Likely Subtags),
/// and returns its length, as `langtag_maximized` does: zh-Hant-TW becomes zh-TW, en-Latn-US
/// becomes en, and iw-Hebr-IL becomes iw. If it is enough to keep either the script or the region,
/// the region is kept.
#[inline]
pub fn langtag_minimized(bytes: &[u8], buffer: &mut [u8]) -> usize {
    match tag_of(bytes) {
        Some(tag) => write_minimized(tag, buffer),
        None => 0,
    }
}

/// Writes the version of Unicode's CLDR inside this library to `buffer`, such as 48.2, and returns
/// its length. Likely subtags, distances and aliases come from that version. As with
/// `langtag_canonical`, nothing is written if the buffer is too short.
#[inline]
pub fn langtag_cldr_version(buffer: &mut [u8]) -> usize {
    write_text(CLDR_VERSION.as_bytes(), buffer)
}
