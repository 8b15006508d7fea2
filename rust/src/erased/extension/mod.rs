// Generated from crates/langtag_extension/src/lib.rt. Do not edit.

//! Extensions of language tags, and the singletons that begin them (RFC 5646 section 2.2.6).
//!
//! ```rust
//! # fn main() -> Result<(), Box<dyn std::error::Error>> {
//! use langtag::{Extensions, Singleton};
//!
//! let extensions = Extensions::new("a-ext1-u-co-phonebk")?;
//! let unicode = extensions.get(Singleton::new(b'U')?).ok_or("no such extension")?;
//! assert_eq!(unicode.as_str(), "u-co-phonebk");
//! # Ok(())
//! # }
//! ```

mod extension;
mod extension_iter;
mod extension_subtag;
mod extension_texts;
mod extensions;
mod extensions_iter;
mod noted;
mod singleton;

#[cfg(feature = "alloc")]
pub use extension::ExtensionBuf;
pub use extension::{Extension, InvalidExtension};
pub use extension_iter::ExtensionIter;
#[cfg(feature = "alloc")]
pub use extension_subtag::ExtensionSubtagBuf;
pub use extension_subtag::{ExtensionSubtag, InvalidExtensionSubtag};
pub use extension_texts::first_extension_end;
#[cfg(feature = "alloc")]
pub use extensions::ExtensionsBuf;
pub use extensions::{Extensions, InvalidExtensions};
pub use extensions_iter::ExtensionsIter;
pub use singleton::{InvalidSingleton, Singleton};

// For this repository.
pub(crate) use noted::{folded_singleton, singletons_of, SINGLETONS};
