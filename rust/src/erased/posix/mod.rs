// Generated from crates/langtag_posix/src/lib.rt. Do not edit.

//! The tags for the names of POSIX locales (IEEE Std 1003.1, section 8.2), and the names for tags.
//! The names as Java, Android, .NET, ICU and Apple's systems write them are read, too.
//!
//! ```
//! # fn main() -> Result<(), Box<dyn std::error::Error>> {
//! use langtag::erased::tag::LangTag;
//! use langtag::erased::posix::{from_posix, to_posix};
//!
//! assert_eq!(from_posix("sr_RS@latin")?.as_str(), "sr-Latn-RS");
//! assert_eq!(to_posix(LangTag::new("sr-Latn-RS")?)?.as_deref(), Some("sr_RS@latin"));
//! # Ok(())
//! # }
//! ```

mod keyword_names;
mod locale_name;
mod modifiers;
mod platform_names;
mod posix;
#[cfg(feature = "alloc")]
mod posix_error;
mod posix_name;
mod posix_parts;
mod posix_text;
mod posix_variant;

#[cfg(feature = "alloc")]
pub use locale_name::to_posix;
pub use locale_name::write_to_posix;
pub use modifiers::unknown_modifier;
#[cfg(feature = "alloc")]
pub use posix::from_posix;
pub use posix::write_from_posix;
#[cfg(feature = "alloc")]
pub use posix_error::PosixError;
