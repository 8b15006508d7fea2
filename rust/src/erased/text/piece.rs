// Generated from crates/langtag_text/src/piece.rt. Do not edit.

//! The pieces of a string in its recommended case. In each piece, the uppercase letters come before
//! the lowercase letters.

use crate::erased::scan::segment_end;

/// A piece of a string in its recommended case ([RFC 5646 section 2.1.1]). Each subtag before the
/// first single-byte subtag is a piece. The rest of the string is one more piece, which is all
/// lowercase.
///
/// [RFC 5646 section 2.1.1]: https://www.rfc-editor.org/rfc/rfc5646#section-2.1.1
#[derive(Clone, Copy, Debug)]
pub(crate) struct Piece {
    /// The length of the piece in bytes.
    pub(crate) len: usize,
    /// The number of bytes at the start of the piece whose letters are uppercase. All letters after
    /// these bytes are lowercase.
    pub(crate) capitals: usize,
}

impl Piece {
    /// Returns the piece at the start of a string. The first subtag is lowercase, whatever its
    /// length is.
    #[inline]
    pub(crate) fn first(text: &[u8]) -> Piece {
        Piece {
            capitals: 0,
            ..Piece::later(text)
        }
    }

    /// Returns the piece at the start of `text`, which is the rest of a longer string after a
    /// hyphen. No subtag before that hyphen may have a single byte.
    #[inline]
    pub(crate) fn later(text: &[u8]) -> Piece {
        match segment_end(text, 0) {
            1 => Piece {
                len: text.len(),
                capitals: 0,
            },
            2 => Piece {
                len: 2,
                capitals: 2,
            },
            4 => Piece {
                len: 4,
                capitals: 1,
            },
            len => Piece { len, capitals: 0 },
        }
    }
}
