// Generated from crates/langtag_posix/src/posix_name.rt. Do not edit.

//! The parts of a POSIX locale name, and how they are written.

use crate::erased::posix::posix_parts::{
    modifier_of_tag, named_language, region_text, variant_of_tag,
};
use crate::erased::tag::NormalLangTag;
use crate::erased::text::write_pieces;

/// The parts of a POSIX locale name, `language[_territory][_variant][@modifier]`. Each is empty if
/// it is absent.
#[derive(Clone, Copy)]
pub(crate) struct PosixName<'a> {
    language: &'a [u8],
    territory: &'a [u8],
    variant: &'static [u8],
    modifier: &'static [u8],
}

impl<'a> PosixName<'a> {
    /// Returns the parts of the name for a tag, or `None` if the tag has no name.
    pub(crate) fn of(tag: NormalLangTag<'a>) -> Option<PosixName<'a>> {
        let language = named_language(tag.language())?;
        let variant = variant_of_tag(tag)?;
        let modifier = modifier_of_tag(tag)?;
        Some(PosixName {
            language,
            territory: region_text(tag.region()),
            variant,
            modifier,
        })
    }

    /// Writes the name to a buffer if it fits, and returns its length in bytes.
    pub(crate) fn write(&self, buffer: &mut [u8]) -> usize {
        let (mut lower, mut upper) = ([0; 3], [0; 3]);
        let language = lowercase(self.language, &mut lower);
        let territory = uppercase(self.territory, &mut upper);
        let pieces: [&[u8]; 7] = [
            language,
            mark_before(territory, b"_"),
            territory,
            mark_before(self.variant, b"_"),
            self.variant,
            mark_before(self.modifier, b"@"),
            self.modifier,
        ];
        write_pieces(&pieces, buffer)
    }
}

/// Returns the mark, or the empty string if nothing comes after it.
#[inline]
fn mark_before(text: &[u8], mark: &'static [u8]) -> &'static [u8] {
    if text.is_empty() {
        b""
    } else {
        mark
    }
}

/// Writes a string in lowercase into `room`, and returns it.
fn lowercase<'r>(text: &[u8], room: &'r mut [u8; 3]) -> &'r [u8] {
    let bytes = &mut room[..text.len()];
    bytes.copy_from_slice(text);
    bytes.make_ascii_lowercase();
    bytes
}

/// Writes a string in uppercase into `room`, and returns it.
fn uppercase<'r>(text: &[u8], room: &'r mut [u8; 3]) -> &'r [u8] {
    let bytes = &mut room[..text.len()];
    bytes.copy_from_slice(text);
    bytes.make_ascii_uppercase();
    bytes
}
