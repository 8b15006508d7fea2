// Generated from crates/langtag_c/src/lib.rt. Do not edit.

//! Language tags for C, and for languages that call C: a static library over plain bytes. It does
//! not allocate, keeps no state, and calls no function of the program. `bindings/include/langtag.h`
//! declares its functions.
//!
//! The documentation of a function is its comment in that header, so it speaks of C: an argument
//! marked with "(out)" is only written, and names in capitals are those of the header.
//!
//! A slice is passed as a pointer and a length. Bytes need not be UTF-8. No function requires more
//! of its arguments than their types do. No pointer may be NULL: a contract cannot speak of NULL,
//! so a check could not be proved. So a keyword is removed by `langtag_without_keyword`, and not by
//! NULL as its value. A kind is a `u32`, with an enum in the header, because compilers differ in
//! the width of an enum.

pub(crate) mod accepted;
pub(crate) mod base;
pub(crate) mod best_match;
pub(crate) mod canonical;
pub(crate) mod choice;
pub(crate) mod compare;
pub(crate) mod direction;
pub(crate) mod extension_walk;
pub(crate) mod extensions_form;
pub(crate) mod fallback;
pub(crate) mod grandfathered;
pub(crate) mod header_look_up;
pub(crate) mod items;
pub(crate) mod keyword;
pub(crate) mod likely;
pub(crate) mod locale_form;
pub(crate) mod look_up;
pub(crate) mod members;
pub(crate) mod parent;
pub(crate) mod parse;
pub(crate) mod part;
pub(crate) mod posix;
pub(crate) mod prepare;
pub(crate) mod range;
pub(crate) mod range_place;
pub(crate) mod recommend;
pub(crate) mod refused;
pub(crate) mod registry_date;
pub(crate) mod repeats;
pub(crate) mod site;
pub(crate) mod span;
pub(crate) mod spanned;
pub(crate) mod spanned_ranges;
pub(crate) mod spanned_tags;
pub(crate) mod suggestion;
pub(crate) mod suitable;
pub(crate) mod tag;
pub(crate) mod transform;
pub(crate) mod validity;
pub(crate) mod viable;
pub(crate) mod walk;
pub(crate) mod with_keyword;
pub(crate) mod with_part;
