// Generated from crates/langtag_choice/src/lib.rt. Do not edit.

//! The choice of the best tag for an Accept-Language header (RFC 9110 section 12.5.4) or for
//! language ranges (RFC 4647). It uses the distance of tags (UTS #35, part 1, section 'Language
//! Matching') and, if no tag is near, lookup.
//!
//! ```
//! # fn main() -> Result<(), Box<dyn std::error::Error>> {
//! use langtag::erased::tag::LangTag;
//! use langtag::erased::choice::{best_for_header, distance};
//!
//! let tags = [LangTag::new("en")?, LangTag::new("zh-Hans")?, LangTag::new("zh-Hant")?];
//! assert_eq!(best_for_header(b"zh-TW,zh;q=0.9,en;q=0.8", &tags), Some(2));
//! assert_eq!(distance(LangTag::new("zh-TW")?, tags[2]), 0);
//! # Ok(())
//! # }
//! ```

mod as_read;
mod best;
mod best_match;
mod by_ranges;
mod by_tags;
mod candidate;
mod first_letters;
mod improve;
mod known_at;
mod known_tag;
mod likely_region;
mod matching_tables;
mod nearness;
#[cfg(feature = "alloc")]
mod owned_site;
mod prepared_form;
mod prepared_tag;
mod range_language;
mod range_list;
mod read_range;
mod refused;
mod region_distance;
mod region_group;
mod rule_distance;
mod serving;
mod shortlist;
mod site;
mod suitable;
mod tag_distance;
mod tag_list;
mod transformed;
mod variants;
mod wish;

#[cfg(feature = "alloc")]
pub use best::best_for_accept_language;
pub use best::{best_among, best_for_header, best_for_ranges, match_among, match_for_header};
pub use best_match::BestMatch;
#[cfg(feature = "alloc")]
pub use owned_site::OwnedSite;
pub use prepared_form::PreparedForm;
pub use prepared_tag::PreparedTag;
pub use range_list::RangeList;
pub use serving::suitable_count;
pub use site::Site;
pub use suitable::write_suitable;
#[cfg(feature = "alloc")]
pub use suitable::{suitable_among, suitable_for_header, suitable_for_ranges};
pub use tag_distance::{distance, FORMLESS_DISTANCE};
pub use tag_list::TagList;
