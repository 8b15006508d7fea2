// Generated from crates/langtag_text/src/recommended_bytes.rt. Do not edit.

//! The bytes of a string in its recommended case, one by one.

use crate::erased::text::piece::Piece;

/// An iterator over the bytes of a string in its recommended case ([RFC 5646 section 2.1.1]): `m`,
/// `n`, `-`, `M`, `N` for `MN-mn`.
///
/// [RFC 5646 section 2.1.1]: https://www.rfc-editor.org/rfc/rfc5646#section-2.1.1
pub(crate) struct RecommendedBytes<'a> {
    /// What is left of the current piece.
    piece: &'a [u8],
    /// The number of bytes at the start of `piece` whose letters are uppercase.
    capitals: usize,
    /// What follows the piece: nothing, or a hyphen and the next pieces.
    rest: &'a [u8],
}

impl<'a> RecommendedBytes<'a> {
    /// Returns an iterator over all bytes of a string in its recommended case.
    #[inline]
    pub(crate) fn new(text: &'a [u8]) -> Self {
        let Piece { len, capitals } = Piece::first(text);
        let (piece, rest) = text.split_at(len);
        RecommendedBytes {
            piece,
            capitals,
            rest,
        }
    }
}

impl<'a> Iterator for RecommendedBytes<'a> {
    type Item = u8;

    #[inline]
    fn next(&mut self) -> Option<u8> {
        let Some((&byte, piece)) = self.piece.split_first() else {
            let (&hyphen, text) = self.rest.split_first()?;
            let Piece { len, capitals } = Piece::later(text);
            (self.piece, self.rest) = text.split_at(len);
            self.capitals = capitals;
            return Some(hyphen);
        };
        self.piece = piece;
        if self.capitals == 0 {
            return Some(byte.to_ascii_lowercase());
        }
        self.capitals -= 1;
        Some(byte.to_ascii_uppercase())
    }
}
