// Generated from crates/langtag_private/src/lib.rt. Do not edit.

//! The private use part of a tag (RFC 5646 section 2.2.7), which may also be a tag of its own.
//!
//! `x-a-x-b` is a [`PrivateUse`] with the [`PrivateUseSubtag`]s `a`, `x` and `b`. Both types have
//! an owned form, such as `PrivateUseBuf`.
//!
//! ```rust
//! # fn main() -> Result<(), Box<dyn std::error::Error>> {
//! use langtag::PrivateUse;
//!
//! let private_use = PrivateUse::new("x-a-x-b")?;
//! assert_eq!(private_use.iter().count(), 3);
//! let first = private_use.iter().next().ok_or("no subtags")?;
//! assert_eq!(first.as_str(), "a");
//! # Ok(())
//! # }
//! ```
//!
//! A returned subtag borrows its bytes from the string. It is proved that its bytes equal the bytes
//! in the string, but not that they are at the same address.

mod private_use;
mod private_use_iter;
mod private_use_subtag;

#[cfg(feature = "alloc")]
pub use private_use::PrivateUseBuf;
pub use private_use::{InvalidPrivateUse, PrivateUse};
pub use private_use_iter::PrivateUseIter;
#[cfg(feature = "alloc")]
pub use private_use_subtag::PrivateUseSubtagBuf;
pub use private_use_subtag::{InvalidPrivateUseSubtag, PrivateUseSubtag};
