// Generated from crates/langtag_posix/src/posix_variant.rt. Do not edit.

//! The variant `POSIX` of a locale name, which becomes the keyword `va-posix`. It does so only if
//! it is the only variant, as in ICU and Intl.

use crate::erased::tag::{LangTag, NormalLangTag};
use crate::erased::text::write_pieces;

/// The greatest length of the string that a name is read as, with the keyword, in bytes:
/// `-u-va-posix` has five more than `-POSIX`.
pub(crate) const MOST_WITH_KEYWORD: usize = 265;

/// Writes a tag whose only variant is `POSIX` into `room`, with the keyword `va-posix` instead, and
/// returns it. Any other tag, and a tag with extensions, stays.
pub(crate) fn tag_with_keyword<'a>(
    tag: LangTag<'a>,
    room: &'a mut [u8; MOST_WITH_KEYWORD],
) -> LangTag<'a> {
    let Some(normal) = tag.as_normal() else {
        return tag;
    };
    let Some((before, after)) = around_posix(normal) else {
        return tag;
    };
    let pieces: [&[u8]; 3] = [before, b"-u-va-posix", after];
    let len = write_pieces(&pieces, room);
    LangTag::from_bytes(&room[..len]).unwrap_or_else(|_| unreachable!())
}

/// Returns the string before `-POSIX` and after it if this is the only variant, and there are no
/// extensions.
fn around_posix(tag: NormalLangTag<'_>) -> Option<(&[u8], &[u8])> {
    let text = tag.as_str().as_bytes();
    let ends = tag.ends();
    if ends.variants != ends.extensions {
        return None;
    }
    if !tag.variants().eq_str("POSIX") {
        return None;
    }
    Some((&text[..ends.variants - 6], &text[ends.variants..]))
}
