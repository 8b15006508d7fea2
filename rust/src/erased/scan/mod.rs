// Generated from crates/langtag_scan/src/lib.rt. Do not edit.

//! Language tags as bytes (RFC 5646 section 2.1): comparison ignoring case, tests for the classes
//! of subtags, and the parser, which decides whether bytes are a tag.
//!
//! ```
//! # fn main() -> Result<(), Box<dyn std::error::Error>> {
//! use langtag::scan::{ByteSource, Metered, recognise, viable_len};
//!
//! let mut source = Metered::new("fr-abc-bz-x-a");
//! let ends = recognise(&mut source).and_then(|found| found.ends()).ok_or("no normal tag")?;
//! assert_eq!( // no script, and the region is `bz`
//!     (ends.language, ends.script, ends.region, ends.whole),
//!     (6, 6, 9, 13)
//! );
//!
//! let mut source = Metered::new("i-notexist");
//! assert!(recognise(&mut source).is_none());
//! assert_eq!(source.reads(), 4); // no tag begins with `i-no`
//!
//! assert_eq!(viable_len(b"zh_Hant"), 2); // no tag begins with `zh_`
//! # Ok(())
//! # }
//! ```
//!
//! `Caseless`, `folded_number` and `GRANDFATHERED_TEXTS` serve the crates of this workspace that
//! build the string types.

mod case;
mod caseless;
mod class;
mod ends;
mod finding;
mod found;
mod grandfathered;
mod metered;
mod recogniser;
mod segment;
mod slice_reader;
mod source;
mod state;
mod states;
mod subtags;
mod viable;

pub(crate) use case::folded_number;
pub use case::{case_insensitive_cmp, case_insensitive_eq, case_insensitive_hash, into_smallcase};
pub use caseless::Caseless;
pub use class::{
    are_letters, is_extended, is_extension_subtag, is_mark, is_primary, is_private_subtag,
    is_region, is_script, is_singleton, is_variant,
};
pub use ends::Ends;
pub use found::Found;
pub use grandfathered::GRANDFATHERED_TEXTS;
pub use metered::Metered;
pub use recogniser::{recognise, recognise_normal};
pub(crate) use segment::{segment_end, segment_start};
pub use source::ByteSource;
pub use subtags::Subtags;
pub use viable::{viable_len, viable_len_with_hyphen};

// For this repository.
pub(crate) use slice_reader::read_bytes;
