// Generated from crates/langtag_place/src/lib.rt. Do not edit.

//! The parts that may follow the language of a tag: script, region and variants (RFC 5646 sections
//! 2.2.3 to 2.2.5).
//!
//! ```rust
//! # fn main() -> Result<(), Box<dyn std::error::Error>> {
//! use langtag::{Region, Variants};
//!
//! let region = Region::new("FR")?;
//! assert_eq!(region.eq_str("fr"), true);
//! let variants = Variants::new("rozaj-1994")?;
//! let last = variants.last().ok_or("no variants")?;
//! assert_eq!(last.as_str(), "1994");
//! # Ok(())
//! # }
//! ```

mod region;
mod repeats;
mod script;
mod variant;
mod variant_blocks;
mod variants;
mod variants_iter;

#[cfg(feature = "alloc")]
pub use region::RegionBuf;
pub use region::{InvalidRegion, Region};
pub use repeats::{first_repeated_variant, is_among_first};
#[cfg(feature = "alloc")]
pub use script::ScriptBuf;
pub use script::{InvalidScript, Script};
#[cfg(feature = "alloc")]
pub use variant::VariantBuf;
pub use variant::{InvalidVariant, Variant};
#[cfg(feature = "alloc")]
pub use variants::VariantsBuf;
pub use variants::{InvalidVariants, Variants};
pub use variants_iter::VariantsIter;
