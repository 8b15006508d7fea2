// Generated from crates/langtag_canonical/src/lib.rt. Do not edit.

//! The canonical form of a tag by IANA's registry, and its form with extended languages (RFC 5646
//! section 4.5).

mod canonical_form;
mod canonical_language;
mod canonical_parts;
mod canonical_variants;
mod extension_order;
mod extlang_forms;
mod form;

#[cfg(feature = "alloc")]
pub use canonical_form::canonical;
pub use canonical_form::{is_canonical, write_canonical};
#[cfg(feature = "alloc")]
pub use extlang_forms::extlang_form;
