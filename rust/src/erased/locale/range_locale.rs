// Generated from crates/langtag_locale/src/range_locale.rt. Do not edit.

//! The Unicode locale identifier that a range stands for.

use crate::erased::locale::locale_for::locale_for;
use crate::erased::posix::write_from_posix;
use crate::erased::tag::{LangTag, NormalLangTag};

/// The greatest length of the tag for the name of a POSIX locale that is read, in bytes.
pub(crate) const MOST_NAMED: usize = 288;

/// Returns a Unicode locale identifier with the form of a range. A range that is not a tag with a
/// form is read as the name of a POSIX locale, whose tag is written into `room`.
pub(crate) fn range_locale<'a>(
    range: &'a [u8],
    room: &'a mut [u8; MOST_NAMED],
) -> Option<NormalLangTag<'a>> {
    if let Some(locale) = locale_of(range) {
        return Some(locale);
    }
    locale_of(posix_tag(range, room)?)
}

/// Returns a Unicode locale identifier with the form of a tag.
#[inline]
fn locale_of(text: &[u8]) -> Option<NormalLangTag<'_>> {
    LangTag::from_bytes(text).ok().and_then(locale_for)
}

/// Returns the tag for the name of a POSIX locale, written into `room`.
fn posix_tag<'a>(name: &[u8], room: &'a mut [u8; MOST_NAMED]) -> Option<&'a [u8]> {
    let len = write_from_posix(name, room)?;
    if len > MOST_NAMED {
        return None;
    }
    Some(&room[..len])
}
