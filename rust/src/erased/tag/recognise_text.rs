// Generated from crates/langtag/src/recognise_text.rt. Do not edit.

//! The only file in which this crate calls a recogniser.

use crate::erased::scan::{read_bytes, Ends};
use crate::erased::tag::grandfathered::GrandfatheredLangTag;
use crate::erased::tag::recognised::Recognised;

/// Returns what the recogniser finds in bytes, or `None` if they are not a tag.
///
/// Every constructor that parses a tag calls this function. It is inlined, since the recogniser is
/// only one short loop.
#[inline(always)]
pub(crate) const fn recognise_bytes(bytes: &[u8]) -> Option<Recognised> {
    let Some(found) = read_bytes(bytes) else {
        return None;
    };
    if let Some(ends) = found.ends() {
        return Some(Recognised::Normal(ends));
    }
    match found.irregular() {
        Some(index) => Some(Recognised::Irregular(GrandfatheredLangTag::at(index))),
        None => Some(Recognised::PrivateUse),
    }
}

/// Returns what the recogniser finds in a string, or `None` if it is not a tag.
#[inline]
pub(crate) fn recognise_text(text: &str) -> Option<Recognised> {
    recognise_bytes(text.as_bytes())
}

/// Returns where the parts of a normal tag end, or `None` if the string is not a normal tag.
#[inline]
pub(crate) fn normal_ends(text: &str) -> Option<Ends> {
    recognise_text(text)?.ends()
}
