//! The recogniser of tags (RFC 5646 section 2.1) over bytes from any source, and what it finds.
//! Most programs need only [`LangTag::new`](crate::LangTag::new), which calls the recogniser.
//!
//! ```
//! use langtag::scan::{recognise, ByteSource, Metered};
//!
//! let mut source = Metered::new("zh-Hant-TW");
//! let ends = recognise(&mut source).and_then(|found| found.ends()).unwrap();
//! assert_eq!((ends.language, ends.script, ends.region), (2, 7, 10));
//! assert_eq!(source.reads(), 10);
//! ```
pub use crate::erased::scan::{
    are_letters, case_insensitive_cmp, case_insensitive_eq, case_insensitive_hash, into_smallcase,
    is_extended, is_extension_subtag, is_mark, is_primary, is_private_subtag, is_region, is_script,
    is_singleton, is_variant, recognise, recognise_normal, viable_len, ByteSource, Ends, Found,
    Metered, Subtags,
};
pub use crate::erased::text::{is_in_recommended_case, make_recommended_case};
