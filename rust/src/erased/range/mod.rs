// Generated from crates/langtag_range/src/lib.rt. Do not edit.

//! Strings of language ranges: which strings are ranges (RFC 4647), which tags they match, and how
//! ranges, lists, headers and names of POSIX locales are read. The crate `langtag_match` exports
//! the public items.
//!
//! ```
//! use langtag::erased::matching::{listed_range, locale_place, weight_of};
//!
//! assert_eq!(listed_range(b" de_CH ").map(|range| range.weight), Some(1000));
//! assert_eq!(locale_place(b"de_CH.UTF-8"), b"de_CH");
//! assert_eq!(weight_of(b"q=0.5"), Some(500));
//! ```

mod basic;
mod basic_form;
mod extended;
mod fallback;
mod listed;
mod locale;
mod plain_element;
mod range_text;
mod split;
mod wanted;
mod wanted_element;
mod weight;
mod white_space;

pub use listed::listed_range;
pub use locale::locale_place;
pub use wanted::{split_wanted, wanted_ranges, WantedRange, WantedRanges};
pub use weight::weight_of;
pub use white_space::is_empty_element;

// For this repository.
pub(crate) use basic::matches_basic;
pub(crate) use basic_form::is_range;
pub(crate) use extended::matches_extended;
pub(crate) use fallback::{ends_in_single, shortened_len};
pub(crate) use range_text::{is_basic_range, is_language_range};
pub(crate) use split::{len_before, split_at_byte, split_at_either};
pub(crate) use wanted_element::is_separator;
pub(crate) use white_space::trimmed_place;
