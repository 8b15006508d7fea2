// Generated from crates/langtag_text/src/write.rt. Do not edit.

//! Writing the pieces of a string into the caller's buffer.

use crate::erased::text::output::Output;

/// Writes pieces of string one after another to a buffer, and returns their total length in bytes:
/// 5 for `en`, `-` and `MM`. If the buffer is too short, it stays unchanged, and the length says
/// how much room is needed. It does not allocate.
///
/// The length is at most `usize::MAX`, even if the pieces overlap and have more bytes in total.
#[inline]
pub fn write_pieces(pieces: &[&[u8]], buffer: &mut [u8]) -> usize {
    let len = put_pieces(pieces, &mut []);
    if len <= buffer.len() {
        put_pieces(pieces, buffer);
    }
    len
}

/// Writes a string to a buffer, like [`write_pieces`] with a single piece, and returns its length
/// in bytes.
#[inline]
pub fn write_text(text: &[u8], buffer: &mut [u8]) -> usize {
    write_pieces(&[text], buffer)
}

/// Writes as much of some pieces as fits into a buffer, and returns their total length.
#[inline(always)]
fn put_pieces(pieces: &[&[u8]], buffer: &mut [u8]) -> usize {
    let mut out = Output::new(buffer);
    for piece in pieces {
        out.push(piece);
    }
    out.len()
}
