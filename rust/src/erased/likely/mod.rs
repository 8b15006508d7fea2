// Generated from crates/langtag_likely/src/lib.rt. Do not edit.

//! Likely subtags (UTS #35, part 1, section 'Likely Subtags') from Unicode's CLDR. They are the
//! most likely script and region of a language, which can be added to a tag or removed from it. The
//! crate also finds the writing direction of a tag.
//!
//! ```
//! # fn main() -> Result<(), Box<dyn std::error::Error>> {
//! use langtag::erased::tag::LangTag;
//! use langtag::erased::likely::{maximized, minimized};
//!
//! assert_eq!(maximized(LangTag::new("zh-TW")?)?.as_str(), "zh-Hant-TW");
//! assert_eq!(minimized(LangTag::new("zh-Hant-TW")?)?.as_str(), "zh-TW");
//! # Ok(())
//! # }
//! ```

mod direction;
mod fields;
mod forms;
mod put;

pub use crate::erased::cldr::{suggested_language, suggested_region, CLDR_VERSION};
pub use crate::erased::parent::{nth_parent, parent, ParentTag, Parents};
#[cfg(feature = "alloc")]
pub use crate::erased::posix::{from_posix, to_posix, PosixError};
pub use crate::erased::posix::{unknown_modifier, write_from_posix, write_to_posix};
pub use direction::is_right_to_left;
#[cfg(feature = "alloc")]
pub use forms::{maximized, minimized};
pub use forms::{write_maximized, write_minimized};

// For this repository.
pub(crate) use fields::{fields_of, is_read, marked_region};
