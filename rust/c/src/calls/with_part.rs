// Generated from crates/langtag_c/src/with_part.rt. Do not edit.

//! A tag with one part changed, written to the caller's buffer (RFC 5646 sections 2.2.1 to 2.2.7).

use crate::calls::part::part_of;
use crate::calls::tag::normal_tag_of;
use crate::erased::tag::write_part;

/// Writes a normal tag with one part changed to `buffer`, and returns the length of the new tag.
/// `part` is an enum `langtag_part`. An empty string removes the part. All other parts stay, and
/// the new part keeps its case.
///
/// ```c
/// char buffer[64];
/// size_t len = langtag_with_part("sl-IT-rozaj", 11, LANGTAG_PART_SCRIPT, "Latn", 4, buffer, sizeof buffer);
/// if (len > 0 && len <= sizeof buffer) printf("%.*s\n", (int)len, buffer); // sl-Latn-IT-rozaj
/// ```
///
/// As with snprintf, the result may be greater than `buffer_len`. It is then the size that is
/// needed, and nothing is written. A size of tag_len + text_len + 1 is always enough. No NUL is
/// written, and bytes after the new tag are left unchanged.
///
/// Returns 0 and writes nothing if the tag is not `LANGTAG_NORMAL`, if `part` is not a value of
/// enum `langtag_part`, or if the string is not such a part: Latin is not a script. The language
/// cannot be removed.
pub fn langtag_with_part(tag: &[u8], part: u32, text: &[u8], buffer: &mut [u8]) -> usize {
    let Some(part) = part_of(part, text) else {
        return 0;
    };
    let Some(tag) = normal_tag_of(tag) else {
        return 0;
    };
    write_part(tag, part, buffer)
}
