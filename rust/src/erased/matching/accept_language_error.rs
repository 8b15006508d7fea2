// Generated from crates/langtag_match/src/accept_language_error.rt. Do not edit.

//! Why an Accept-Language header was refused.

#[cfg(feature = "alloc")]
use crate::shim::AllocError;
#[cfg(feature = "alloc")]
use alloc::string::String;
use core::fmt;

/// The part of an element that is malformed: the language range in `de-`, the weight in `de;q=2`.
/// If both are malformed, the value is `Range`.
///
/// ```
/// use langtag::matching::ElementPart;
///
/// assert_eq!(format!("{}", ElementPart::Range), "language range");
/// ```
#[derive(Debug, Clone, Copy, PartialEq, Eq, Hash)]
#[non_exhaustive]
pub enum ElementPart {
    /// The string before the `;`, or the whole element if it has no `;`, is not a basic language
    /// range.
    Range,
    /// The string after the `;` is not a weight.
    Weight,
}

impl fmt::Display for ElementPart {
    #[inline]
    fn fmt(&self, f: &mut fmt::Formatter<'_>) -> fmt::Result {
        f.pad(match self {
            ElementPart::Range => "language range",
            ElementPart::Weight => "weight",
        })
    }
}

/// The error for an Accept-Language header. For `de, *-CH` it is a `BadElement` with the index 1,
/// the offset 4 and [`ElementPart::Range`].
///
/// ```
/// use langtag::matching::{AcceptLanguage, AcceptLanguageError};
///
/// let error = AcceptLanguage::new("de, *-CH").err();
/// assert!(matches!(error, Some(AcceptLanguageError::BadElement { index: 1, offset: 4, .. })));
/// ```
#[cfg(feature = "alloc")]
#[derive(Debug, Clone, PartialEq, Eq, Hash)]
#[non_exhaustive]
pub enum AcceptLanguageError {
    /// The first malformed element.
    BadElement {
        /// The header.
        header: String,
        /// The index of the element, which is the number of commas before it.
        index: usize,
        /// The offset of the first byte of the element, after the spaces and tabs before it.
        offset: usize,
        /// The part that is malformed.
        part: ElementPart,
    },
    /// Allocation failed for the list of ranges.
    Memory(AllocError),
}

#[cfg(feature = "alloc")]
impl fmt::Display for AcceptLanguageError {
    #[inline]
    fn fmt(&self, f: &mut fmt::Formatter<'_>) -> fmt::Result {
        match self {
            AcceptLanguageError::BadElement {
                header,
                index,
                offset,
                part,
            } => crate::message::write_element(f, header, *index, *offset, part),
            AcceptLanguageError::Memory(_) => f.write_str("out of memory"),
        }
    }
}

#[cfg(feature = "alloc")]
impl core::error::Error for AcceptLanguageError {}

#[cfg(feature = "alloc")]
impl From<AllocError> for AcceptLanguageError {
    #[inline]
    fn from(error: AllocError) -> Self {
        AcceptLanguageError::Memory(error)
    }
}
