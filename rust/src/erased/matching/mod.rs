// Generated from crates/langtag_match/src/lib.rt. Do not edit.

//! Matching of language tags by RFC 4647: language ranges, which tags they match, and the tag for
//! an Accept-Language header (RFC 9110 section 12.5.4).
//!
//! ```
//! # fn main() -> Result<(), Box<dyn std::error::Error>> {
//! use langtag::erased::tag::LangTag;
//! use langtag::erased::matching::{AcceptLanguage, LanguageRange, look_up};
//!
//! let range = LanguageRange::new("de-*-DE")?;
//! assert!(range.matches_extended(&LangTag::new("de-Latn-DE-1996")?));
//! assert!(!range.matches_extended(&LangTag::new("de-x-DE")?)); // no singleton may be left out
//! assert!(LanguageRange::new("de-DE")?.matches_basic(&LangTag::new("de-de-1996")?));
//!
//! let (english, german) = (LangTag::new("en")?, LangTag::new("de")?);
//! assert_eq!(
//!     look_up(&[LanguageRange::new("de-CH")?], &[english, german], english).as_str(),
//!     "de"
//! );
//! let accepted = AcceptLanguage::new("en;q=0.5, de-CH")?;
//! assert_eq!(accepted.ranges()[0].range.as_str(), "de-CH");
//! assert_eq!(accepted.look_up(&[english, german], &english).as_str(), "de");
//! # Ok(())
//! # }
//! ```

#[cfg(feature = "alloc")]
mod accept_language;
mod accept_language_error;
mod element;
mod fallbacks;
mod filter;
mod filter_rule;
mod language_range;
mod lookup;
mod weighted_range;

pub use crate::erased::range::{
    is_empty_element, listed_range, locale_place, split_wanted, wanted_ranges, weight_of,
    WantedRange, WantedRanges,
};
#[cfg(feature = "alloc")]
pub use accept_language::{tag_for_header, AcceptLanguage};
#[cfg(feature = "alloc")]
pub use accept_language_error::AcceptLanguageError;
pub use accept_language_error::ElementPart;
pub use element::{element_at, Element};
pub use fallbacks::Fallbacks;
pub use filter::{filter_basic, filter_extended, Filtered};
#[cfg(feature = "alloc")]
pub use language_range::LanguageRangeBuf;
pub use language_range::{InvalidLanguageRange, LanguageRange};
pub use lookup::look_up;
pub use weighted_range::WeightedRange;
