// Generated from crates/langtag_text/src/lib.rt. Do not edit.

//! How strings are written and edited, the case that RFC 5646 section 2.1.1 recommends for the
//! letters of a language tag, and the base of the tables of subtags: numbers that stand for strings
//! of letters, such as 31 for `ae`.
//!
//! ```
//! use langtag::scan::{is_in_recommended_case, make_recommended_case};
//!
//! let mut text = *b"MN-cYRL-mn-X-LATN";
//! make_recommended_case(&mut text);      // text is `mn-Cyrl-MN-x-latn`
//! assert!(is_in_recommended_case(&text));
//! ```

mod alias;
#[cfg(feature = "alloc")]
mod edit_error;
mod in_recommended_case;
mod letter_numbers;
mod output;
mod piece;
mod recommended_bytes;
mod recommended_case;
mod replacement;
mod write;

#[cfg(feature = "alloc")]
pub use edit_error::EditError;
pub use in_recommended_case::InRecommendedCase;
pub use recommended_case::{is_in_recommended_case, make_recommended_case};
pub use replacement::Replacement;

// For this repository.
pub(crate) use alias::{alias_for, type_alias_for};
pub(crate) use letter_numbers::letter_number;
pub(crate) use output::Output;
#[cfg(feature = "alloc")]
pub(crate) use replacement::replace;
pub(crate) use write::{write_pieces, write_text};
