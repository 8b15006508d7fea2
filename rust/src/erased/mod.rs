//! The modules that tools/erase makes from the proved sources, with all their items. They are public
//! only for the examples of their own documentation, which run as tests. Programs use the modules
//! of the root, which are the API.

#[cfg(feature = "data")]
pub mod canonical;
#[cfg(feature = "data")]
pub mod choice;
#[cfg(feature = "data")]
pub mod cldr;
pub mod extension;
#[cfg(feature = "data")]
pub mod fields;
#[cfg(feature = "data")]
pub mod keyword;
pub mod language;
#[cfg(feature = "data")]
pub mod likely;
#[cfg(feature = "data")]
pub mod locale;
pub mod matching;
#[cfg(feature = "data")]
pub mod parent;
pub mod place;
#[cfg(feature = "data")]
pub mod posix;
pub mod private;
pub mod range;
#[cfg(feature = "data")]
pub mod registry;
pub mod scan;
pub mod tag;
pub mod text;
#[cfg(feature = "data")]
pub mod unicode;
