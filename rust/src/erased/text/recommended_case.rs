// Generated from crates/langtag_text/src/recommended_case.rt. Do not edit.

//! Changes a string to its recommended case, or tests whether it has that case.

use crate::erased::text::piece::Piece;
use crate::erased::text::recommended_bytes::RecommendedBytes;

/// Changes the letters of a string to the case that [RFC 5646 section 2.1.1] recommends for a tag,
/// as in `mn-Cyrl-MN`, `en-CA-x-ca` and `az-Latn-x-latn`.
///
/// The first subtag, and every subtag anywhere after a single-byte subtag, becomes lowercase. Other
/// subtags become uppercase if they have two bytes, titlecase if they have four bytes, and
/// lowercase otherwise. A byte that is not an ASCII letter stays as it is.
///
/// Strings that differ only in case become the same bytes, so the result can be a key in a store
/// that compares bytes.
///
/// ```
/// use langtag::scan::make_recommended_case;
///
/// let mut text = *b"MN-cYRL-mn";
/// make_recommended_case(&mut text);
/// assert_eq!(&text, b"mn-Cyrl-MN");
/// ```
///
/// [RFC 5646 section 2.1.1]: https://www.rfc-editor.org/rfc/rfc5646#section-2.1.1
#[inline]
pub fn make_recommended_case(text: &mut [u8]) {
    text.make_ascii_lowercase();
    capitalise_pieces(text);
}

/// Puts a lowercase text into its recommended case, piece by piece.
#[inline]
fn capitalise_pieces(text: &mut [u8]) {
    let mut end = Piece::first(text).len;
    while end < text.len() {
        let start = end + 1;
        let piece = Piece::later(&text[start..]);
        end = start + piece.len;
        capitalise(&mut text[start..end], piece.capitals);
    }
}

/// Changes the letters among the first `capitals` bytes of a lowercase text to uppercase. If
/// `capitals` is at most 1, which is usual, this needs no loop.
#[inline]
fn capitalise(text: &mut [u8], capitals: usize) {
    match capitals {
        0 => {}
        1 => text[0].make_ascii_uppercase(),
        _ => text[..capitals].make_ascii_uppercase(),
    }
}

/// Returns whether a string is in its recommended case, so that [`make_recommended_case`] would
/// change nothing.
///
/// ```
/// use langtag::scan::is_in_recommended_case;
///
/// assert!(is_in_recommended_case(b"en-CA-x-ca"));
/// assert!(!is_in_recommended_case(b"en-CA-x-CA"));
/// ```
#[inline]
#[must_use]
pub fn is_in_recommended_case(text: &[u8]) -> bool {
    RecommendedBytes::new(text)
        .cmp(text.iter().copied())
        .is_eq()
}
