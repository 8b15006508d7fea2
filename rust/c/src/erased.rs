// Generated from tools/erase/crates.py. Do not edit.

//! The modules of the Rust crate.

#[path = "../../src/erased/canonical/mod.rs"]
pub mod canonical;
#[path = "../../src/erased/choice/mod.rs"]
pub mod choice;
#[path = "../../src/erased/cldr/mod.rs"]
pub mod cldr;
#[path = "../../src/erased/extension/mod.rs"]
pub mod extension;
#[path = "../../src/erased/fields/mod.rs"]
pub mod fields;
#[path = "../../src/erased/keyword/mod.rs"]
pub mod keyword;
#[path = "../../src/erased/language/mod.rs"]
pub mod language;
#[path = "../../src/erased/likely/mod.rs"]
pub mod likely;
#[path = "../../src/erased/locale/mod.rs"]
pub mod locale;
#[path = "../../src/erased/matching/mod.rs"]
pub mod matching;
#[path = "../../src/erased/parent/mod.rs"]
pub mod parent;
#[path = "../../src/erased/place/mod.rs"]
pub mod place;
#[path = "../../src/erased/posix/mod.rs"]
pub mod posix;
#[path = "../../src/erased/private/mod.rs"]
pub mod private;
#[path = "../../src/erased/range/mod.rs"]
pub mod range;
#[path = "../../src/erased/registry/mod.rs"]
pub mod registry;
#[path = "../../src/erased/scan/mod.rs"]
pub mod scan;
#[path = "../../src/erased/tag/mod.rs"]
pub mod tag;
#[path = "../../src/erased/text/mod.rs"]
pub mod text;
#[path = "../../src/erased/unicode/mod.rs"]
pub mod unicode;
