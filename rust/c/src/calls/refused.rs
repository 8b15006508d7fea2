// Generated from crates/langtag_c/src/refused.rt. Do not edit.

//! Where a string that is not a tag is wrong (RFC 5646 section 2.1).

use crate::calls::span::Span;
use crate::erased::tag::{Refusal, RefusalKind};

/// Returns why a string is not a tag, as an enum `langtag_refused_answer`. Writes the wrong subtag
/// (out) and the offset to point at (out).
///
/// ```c
/// langtag_span subtag;
/// size_t offset;
/// langtag_refused("de-419-DE", 9, &subtag, &offset);
/// printf("%.*s %zu\n", (int)subtag.len, "de-419-DE" + subtag.start, offset); // DE 7
/// ```
///
/// The subtag is the first wrong one: no tag begins with the whole subtags up to and including this
/// one. The offset is the start of the subtag, or for `LANGTAG_REFUSED_BYTE` its first byte that is
/// neither a letter nor a digit. For `LANGTAG_REFUSED_NONE` and `LANGTAG_REFUSED_END` the subtag is
/// empty, and subtag and offset are at the end of the string.
pub fn langtag_refused(bytes: &[u8], subtag: &mut Span, offset: &mut usize) -> u32 {
    let Some(refusal) = Refusal::of(bytes) else {
        *subtag = Span {
            start: bytes.len(),
            len: 0,
        };
        *offset = bytes.len();
        return 0;
    };
    *subtag = Span {
        start: refusal.start,
        len: refusal.end - refusal.start,
    };
    *offset = refusal.offset;
    match refusal.kind {
        RefusalKind::Subtag => 1,
        RefusalKind::Byte => 2,
        RefusalKind::End => 3,
    }
}
