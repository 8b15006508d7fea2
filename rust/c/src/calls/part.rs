// Generated from crates/langtag_c/src/part.rt. Do not edit.

//! The parts of a normal tag (RFC 5646 section 2.1), by number.

use crate::erased::tag::{Extensions, Language, Part, PrivateUse, Region, Script, Variants};

/// Returns the part with a number and a string. The empty string means that the part is removed.
/// Returns `None` if no part has this number, or if the string is not a string of this part.
#[inline]
pub(crate) fn part_of<'a>(number: u32, bytes: &'a [u8]) -> Option<Part<'a>> {
    numbered_part(number, core::str::from_utf8(bytes).ok()?)
}

/// Returns the part with a number and a string, as [`part_of`] does.
fn numbered_part(number: u32, text: &str) -> Option<Part<'_>> {
    match number {
        0 => language_part(text),
        1 => script_part(text),
        2 => region_part(text),
        3 => variants_part(text),
        4 => extensions_part(text),
        5 => private_use_part(text),
        _ => None,
    }
}

#[inline]
fn language_part(text: &str) -> Option<Part<'_>> {
    Some(Part::Language(Language::new(text).ok()?))
}

fn script_part(text: &str) -> Option<Part<'_>> {
    if text.is_empty() {
        return Some(Part::Script(None));
    }
    Some(Part::Script(Some(Script::new(text).ok()?)))
}

fn region_part(text: &str) -> Option<Part<'_>> {
    if text.is_empty() {
        return Some(Part::Region(None));
    }
    Some(Part::Region(Some(Region::new(text).ok()?)))
}

#[inline]
fn variants_part(text: &str) -> Option<Part<'_>> {
    Some(Part::Variants(Variants::new(text).ok()?))
}

#[inline]
fn extensions_part(text: &str) -> Option<Part<'_>> {
    Some(Part::Extensions(Extensions::new(text).ok()?))
}

fn private_use_part(text: &str) -> Option<Part<'_>> {
    if text.is_empty() {
        return Some(Part::PrivateUse(None));
    }
    Some(Part::PrivateUse(Some(PrivateUse::new(text).ok()?)))
}
