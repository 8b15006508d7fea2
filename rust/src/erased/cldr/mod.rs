// Generated from crates/langtag_cldr/src/lib.rt. Do not edit.

//! Likely subtags and aliases of Unicode's CLDR for the fields of a tag: its language, its script
//! and its region. The fields need not be those of a tag. The forms of tags are in
//! `langtag_likely`.

mod alias_tables;
mod aliases;
mod direction;
mod fields;
mod keys;
mod likely;
mod matching;
mod names;
mod read_text;
mod replacement;
mod rows;
mod suggestion;
mod tables;
mod tag_fields;
mod text_fields;

// langtag_likely exports these items.
pub use suggestion::{suggested_language, suggested_region};
pub use tables::CLDR_VERSION;

// For this repository.
pub(crate) use aliases::language_replaced;
pub(crate) use direction::is_right_to_left_script;
pub(crate) use fields::{known, or_other};
pub(crate) use keys::index_of;
pub(crate) use likely::{add_likely, add_likely_subtags, remove_likely_subtags, suffices};
pub(crate) use matching::{completed, matching_form, replaced_form};
pub(crate) use names::script_codes;
pub(crate) use read_text::{after_common, are_alike, basic_len};
pub(crate) use replacement::may_change_language;
pub(crate) use rows::{key_number, language_number};
pub(crate) use suggestion::region_replacement;
pub(crate) use tag_fields::TagFields;
pub(crate) use text_fields::after_mark;
