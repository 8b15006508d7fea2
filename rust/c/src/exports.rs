// Written by bindings/generate.py from crates/langtag_c. Do not edit.

//! The functions of `bindings/include/langtag.h`, in the order of the header. Each function turns its pointers into slices and
//! references, and calls the function of the same name in `calls`.
//!
//! The rules of the header make these calls safe. A pointer with a length after it points to that many bytes, which are
//! writable if the pointer is not const. A pointer to a struct is valid for writing. Written memory does not overlap
//! the memory of another argument. An empty text may have any pointer, even NULL.
//!
//! An argument that is only written may be uninitialised. So its function gets a value of its own, which is then copied.
#![allow(unsafe_code, unsafe_op_in_unsafe_fn)]
#![warn(clippy::all)]
#![allow(clippy::missing_safety_doc)]

use crate::calls;
use crate::calls::best_match::BestMatch;
use crate::calls::parse::Parts;
use crate::calls::prepare::PreparedTag;
use crate::calls::repeats::Repeated;
use crate::calls::span::Span;
use core::mem::zeroed;
use core::slice;

/// Returns the slice at a pointer, for reading.
unsafe fn lent<'a, T>(start: *const T, len: usize) -> &'a [T] {
    if len == 0 {
        return &[];
    }
    slice::from_raw_parts(start, len)
}

/// Returns the slice at a pointer, for writing.
unsafe fn taken<'a, T>(start: *mut T, len: usize) -> &'a mut [T] {
    if len == 0 {
        return &mut [];
    }
    slice::from_raw_parts_mut(start, len)
}

#[no_mangle]
pub unsafe extern "C" fn langtag_kind(bytes: *const u8, len: usize) -> u32 {
    calls::parse::langtag_kind(lent(bytes, len))
}

#[no_mangle]
pub unsafe extern "C" fn langtag_parse(bytes: *const u8, len: usize, parts: *mut Parts) -> u32 {
    let mut new_parts: Parts = zeroed();
    let answer = calls::parse::langtag_parse(lent(bytes, len), &mut new_parts);
    parts.write(new_parts);
    answer
}

#[no_mangle]
pub unsafe extern "C" fn langtag_base_len(bytes: *const u8, len: usize) -> usize {
    calls::base::langtag_base_len(lent(bytes, len))
}

#[no_mangle]
pub unsafe extern "C" fn langtag_viable_len(bytes: *const u8, len: usize) -> usize {
    calls::viable::langtag_viable_len(lent(bytes, len))
}

#[no_mangle]
pub unsafe extern "C" fn langtag_stop_len(bytes: *const u8, len: usize) -> usize {
    calls::viable::langtag_stop_len(lent(bytes, len))
}

#[no_mangle]
pub unsafe extern "C" fn langtag_refused(bytes: *const u8, len: usize, subtag: *mut Span, offset: *mut usize) -> u32 {
    let mut new_subtag: Span = zeroed();
    let mut new_offset: usize = zeroed();
    let answer = calls::refused::langtag_refused(lent(bytes, len), &mut new_subtag, &mut new_offset);
    subtag.write(new_subtag);
    offset.write(new_offset);
    answer
}

#[no_mangle]
pub unsafe extern "C" fn langtag_eq(a: *const u8, a_len: usize, b: *const u8, b_len: usize) -> bool {
    calls::compare::langtag_eq(lent(a, a_len), lent(b, b_len))
}

#[no_mangle]
pub unsafe extern "C" fn langtag_cmp(a: *const u8, a_len: usize, b: *const u8, b_len: usize) -> i32 {
    calls::compare::langtag_cmp(lent(a, a_len), lent(b, b_len))
}

#[no_mangle]
pub unsafe extern "C" fn langtag_hash(state: u64, bytes: *const u8, len: usize) -> u64 {
    calls::compare::langtag_hash(state, lent(bytes, len))
}

#[no_mangle]
pub unsafe extern "C" fn langtag_fold(bytes: *mut u8, len: usize) {
    calls::compare::langtag_fold(taken(bytes, len));
}

#[no_mangle]
pub unsafe extern "C" fn langtag_recommend(bytes: *mut u8, len: usize) {
    calls::recommend::langtag_recommend(taken(bytes, len));
}

#[no_mangle]
pub unsafe extern "C" fn langtag_next_subtag(bytes: *const u8, len: usize, rest: *mut Span, subtag: *mut Span) -> bool {
    let mut new_subtag: Span = zeroed();
    let answer = calls::walk::langtag_next_subtag(lent(bytes, len), &mut *rest, &mut new_subtag);
    if answer {
        subtag.write(new_subtag);
    }
    answer
}

#[no_mangle]
pub unsafe extern "C" fn langtag_next_extension(bytes: *const u8, len: usize, rest: *mut Span, extension: *mut Span) -> bool {
    let mut new_extension: Span = zeroed();
    let answer = calls::walk::langtag_next_extension(lent(bytes, len), &mut *rest, &mut new_extension);
    if answer {
        extension.write(new_extension);
    }
    answer
}

#[no_mangle]
pub unsafe extern "C" fn langtag_keyword(bytes: *const u8, len: usize, key: *const u8, key_len: usize, value: *mut Span) -> bool {
    let mut new_value: Span = zeroed();
    let answer = calls::keyword::langtag_keyword(lent(bytes, len), lent(key, key_len), &mut new_value);
    if answer {
        value.write(new_value);
    }
    answer
}

#[no_mangle]
pub unsafe extern "C" fn langtag_next_keyword(bytes: *const u8, len: usize, passed: *mut usize, key: *mut Span, value: *mut Span) -> bool {
    let mut new_key: Span = zeroed();
    let mut new_value: Span = zeroed();
    let answer = calls::keyword::langtag_next_keyword(lent(bytes, len), &mut *passed, &mut new_key, &mut new_value);
    if answer {
        key.write(new_key);
        value.write(new_value);
    }
    answer
}

#[no_mangle]
pub unsafe extern "C" fn langtag_attributes(bytes: *const u8, len: usize, attributes: *mut Span) -> bool {
    let mut new_attributes: Span = zeroed();
    let answer = calls::keyword::langtag_attributes(lent(bytes, len), &mut new_attributes);
    attributes.write(new_attributes);
    answer
}

#[no_mangle]
pub unsafe extern "C" fn langtag_transform(bytes: *const u8, len: usize, language: *mut Span) -> bool {
    let mut new_language: Span = zeroed();
    let answer = calls::transform::langtag_transform(lent(bytes, len), &mut new_language);
    if answer {
        language.write(new_language);
    }
    answer
}

#[no_mangle]
pub unsafe extern "C" fn langtag_field(bytes: *const u8, len: usize, key: *const u8, key_len: usize, value: *mut Span) -> bool {
    let mut new_value: Span = zeroed();
    let answer = calls::transform::langtag_field(lent(bytes, len), lent(key, key_len), &mut new_value);
    if answer {
        value.write(new_value);
    }
    answer
}

#[no_mangle]
pub unsafe extern "C" fn langtag_next_field(bytes: *const u8, len: usize, passed: *mut usize, key: *mut Span, value: *mut Span) -> bool {
    let mut new_key: Span = zeroed();
    let mut new_value: Span = zeroed();
    let answer = calls::transform::langtag_next_field(lent(bytes, len), &mut *passed, &mut new_key, &mut new_value);
    if answer {
        key.write(new_key);
        value.write(new_value);
    }
    answer
}

#[no_mangle]
pub unsafe extern "C" fn langtag_with_part(tag: *const u8, tag_len: usize, part: u32, text: *const u8, text_len: usize, buffer: *mut u8, buffer_len: usize) -> usize {
    calls::with_part::langtag_with_part(lent(tag, tag_len), part, lent(text, text_len), taken(buffer, buffer_len))
}

#[no_mangle]
pub unsafe extern "C" fn langtag_with_keyword(tag: *const u8, tag_len: usize, key: *const u8, key_len: usize, value: *const u8, value_len: usize, buffer: *mut u8, buffer_len: usize) -> usize {
    calls::with_keyword::langtag_with_keyword(lent(tag, tag_len), lent(key, key_len), lent(value, value_len), taken(buffer, buffer_len))
}

#[no_mangle]
pub unsafe extern "C" fn langtag_without_keyword(tag: *const u8, tag_len: usize, key: *const u8, key_len: usize, buffer: *mut u8, buffer_len: usize) -> usize {
    calls::with_keyword::langtag_without_keyword(lent(tag, tag_len), lent(key, key_len), taken(buffer, buffer_len))
}

#[no_mangle]
pub unsafe extern "C" fn langtag_extensions_form(bytes: *const u8, len: usize, buffer: *mut u8, buffer_len: usize) -> usize {
    calls::extensions_form::langtag_extensions_form(lent(bytes, len), taken(buffer, buffer_len))
}

#[no_mangle]
pub unsafe extern "C" fn langtag_is_locale(bytes: *const u8, len: usize) -> bool {
    calls::locale_form::langtag_is_locale(lent(bytes, len))
}

#[no_mangle]
pub unsafe extern "C" fn langtag_locale_form(bytes: *const u8, len: usize, buffer: *mut u8, buffer_len: usize) -> usize {
    calls::locale_form::langtag_locale_form(lent(bytes, len), taken(buffer, buffer_len))
}

#[no_mangle]
pub unsafe extern "C" fn langtag_resolved_locale(range: *const u8, range_len: usize, tag: *const u8, tag_len: usize, buffer: *mut u8, buffer_len: usize) -> usize {
    calls::locale_form::langtag_resolved_locale(lent(range, range_len), lent(tag, tag_len), taken(buffer, buffer_len))
}

#[no_mangle]
pub unsafe extern "C" fn langtag_repeats(bytes: *const u8, len: usize, repeated: *mut Repeated) -> u32 {
    let mut new_repeated: Repeated = zeroed();
    let answer = calls::repeats::langtag_repeats(lent(bytes, len), &mut new_repeated);
    repeated.write(new_repeated);
    answer
}

#[no_mangle]
pub unsafe extern "C" fn langtag_validity(bytes: *const u8, len: usize, invalid: *mut Span) -> u32 {
    let mut new_invalid: Span = zeroed();
    let answer = calls::validity::langtag_validity(lent(bytes, len), &mut new_invalid);
    invalid.write(new_invalid);
    answer
}

#[no_mangle]
pub unsafe extern "C" fn langtag_suggestion(fault: u32, subtag: *const u8, subtag_len: usize, buffer: *mut u8, buffer_len: usize) -> usize {
    calls::suggestion::langtag_suggestion(fault, lent(subtag, subtag_len), taken(buffer, buffer_len))
}

#[no_mangle]
pub unsafe extern "C" fn langtag_canonical(bytes: *const u8, len: usize, buffer: *mut u8, buffer_len: usize) -> usize {
    calls::canonical::langtag_canonical(lent(bytes, len), taken(buffer, buffer_len))
}

#[no_mangle]
pub unsafe extern "C" fn langtag_is_canonical(bytes: *const u8, len: usize) -> bool {
    calls::canonical::langtag_is_canonical(lent(bytes, len))
}

#[no_mangle]
pub unsafe extern "C" fn langtag_registry_date() -> u32 {
    calls::registry_date::langtag_registry_date()
}

#[no_mangle]
pub unsafe extern "C" fn langtag_maximized(bytes: *const u8, len: usize, buffer: *mut u8, buffer_len: usize) -> usize {
    calls::likely::langtag_maximized(lent(bytes, len), taken(buffer, buffer_len))
}

#[no_mangle]
pub unsafe extern "C" fn langtag_minimized(bytes: *const u8, len: usize, buffer: *mut u8, buffer_len: usize) -> usize {
    calls::likely::langtag_minimized(lent(bytes, len), taken(buffer, buffer_len))
}

#[no_mangle]
pub unsafe extern "C" fn langtag_cldr_version(buffer: *mut u8, buffer_len: usize) -> usize {
    calls::likely::langtag_cldr_version(taken(buffer, buffer_len))
}

#[no_mangle]
pub unsafe extern "C" fn langtag_parent(bytes: *const u8, len: usize, buffer: *mut u8, buffer_len: usize) -> usize {
    calls::parent::langtag_parent(lent(bytes, len), taken(buffer, buffer_len))
}

#[no_mangle]
pub unsafe extern "C" fn langtag_nth_parent(bytes: *const u8, len: usize, index: u32, buffer: *mut u8, buffer_len: usize) -> usize {
    calls::parent::langtag_nth_parent(lent(bytes, len), index, taken(buffer, buffer_len))
}

#[no_mangle]
pub unsafe extern "C" fn langtag_is_right_to_left(bytes: *const u8, len: usize) -> bool {
    calls::direction::langtag_is_right_to_left(lent(bytes, len))
}

#[no_mangle]
pub unsafe extern "C" fn langtag_distance(desired: *const u8, desired_len: usize, supported: *const u8, supported_len: usize) -> u32 {
    calls::choice::langtag_distance(lent(desired, desired_len), lent(supported, supported_len))
}

#[no_mangle]
pub unsafe extern "C" fn langtag_best_for_header(header: *const u8, header_len: usize, bytes: *const u8, len: usize, tags: *const Span, tags_len: usize) -> usize {
    calls::choice::langtag_best_for_header(lent(header, header_len), lent(bytes, len), lent(tags, tags_len))
}

#[no_mangle]
pub unsafe extern "C" fn langtag_best_for_ranges(text: *const u8, text_len: usize, ranges: *const Span, ranges_len: usize, bytes: *const u8, len: usize, tags: *const Span, tags_len: usize) -> usize {
    calls::choice::langtag_best_for_ranges(lent(text, text_len), lent(ranges, ranges_len), lent(bytes, len), lent(tags, tags_len))
}

#[no_mangle]
pub unsafe extern "C" fn langtag_match_for_header(header: *const u8, header_len: usize, bytes: *const u8, len: usize, tags: *const Span, tags_len: usize, found: *mut BestMatch) -> usize {
    let mut new_found: BestMatch = zeroed();
    let answer = calls::best_match::langtag_match_for_header(lent(header, header_len), lent(bytes, len), lent(tags, tags_len), &mut new_found);
    found.write(new_found);
    answer
}

#[no_mangle]
pub unsafe extern "C" fn langtag_suitable_for_header(header: *const u8, header_len: usize, bytes: *const u8, len: usize, tags: *const Span, tags_len: usize, found: *mut usize, found_len: usize) -> usize {
    calls::suitable::langtag_suitable_for_header(lent(header, header_len), lent(bytes, len), lent(tags, tags_len), taken(found, found_len))
}

#[no_mangle]
pub unsafe extern "C" fn langtag_suitable_for_ranges(text: *const u8, text_len: usize, ranges: *const Span, ranges_len: usize, bytes: *const u8, len: usize, tags: *const Span, tags_len: usize, found: *mut usize, found_len: usize) -> usize {
    calls::suitable::langtag_suitable_for_ranges(lent(text, text_len), lent(ranges, ranges_len), lent(bytes, len), lent(tags, tags_len), taken(found, found_len))
}

#[no_mangle]
pub unsafe extern "C" fn langtag_prepare(bytes: *const u8, len: usize, tag: *mut PreparedTag) {
    calls::prepare::langtag_prepare(lent(bytes, len), &mut *tag);
}

#[no_mangle]
pub unsafe extern "C" fn langtag_site_best_for_header(header: *const u8, header_len: usize, bytes: *const u8, len: usize, tags: *const PreparedTag, tags_len: usize) -> usize {
    calls::site::langtag_site_best_for_header(lent(header, header_len), lent(bytes, len), lent(tags, tags_len))
}

#[no_mangle]
pub unsafe extern "C" fn langtag_site_best_for_ranges(text: *const u8, text_len: usize, ranges: *const Span, ranges_len: usize, bytes: *const u8, len: usize, tags: *const PreparedTag, tags_len: usize) -> usize {
    calls::site::langtag_site_best_for_ranges(lent(text, text_len), lent(ranges, ranges_len), lent(bytes, len), lent(tags, tags_len))
}

#[no_mangle]
pub unsafe extern "C" fn langtag_site_match_for_header(header: *const u8, header_len: usize, bytes: *const u8, len: usize, tags: *const PreparedTag, tags_len: usize, found: *mut BestMatch) -> usize {
    let mut new_found: BestMatch = zeroed();
    let answer = calls::site::langtag_site_match_for_header(lent(header, header_len), lent(bytes, len), lent(tags, tags_len), &mut new_found);
    found.write(new_found);
    answer
}

#[no_mangle]
pub unsafe extern "C" fn langtag_from_posix(name: *const u8, name_len: usize, buffer: *mut u8, buffer_len: usize) -> usize {
    calls::posix::langtag_from_posix(lent(name, name_len), taken(buffer, buffer_len))
}

#[no_mangle]
pub unsafe extern "C" fn langtag_to_posix(bytes: *const u8, len: usize, buffer: *mut u8, buffer_len: usize) -> usize {
    calls::posix::langtag_to_posix(lent(bytes, len), taken(buffer, buffer_len))
}

#[no_mangle]
pub unsafe extern "C" fn langtag_unknown_modifier(name: *const u8, name_len: usize, modifier: *mut Span) -> bool {
    let mut new_modifier: Span = zeroed();
    let answer = calls::posix::langtag_unknown_modifier(lent(name, name_len), &mut new_modifier);
    if answer {
        modifier.write(new_modifier);
    }
    answer
}

#[no_mangle]
pub unsafe extern "C" fn langtag_grandfathered(bytes: *const u8, len: usize) -> u32 {
    calls::grandfathered::langtag_grandfathered(lent(bytes, len))
}

#[no_mangle]
pub unsafe extern "C" fn langtag_range_kind(bytes: *const u8, len: usize) -> u32 {
    calls::range::langtag_range_kind(lent(bytes, len))
}

#[no_mangle]
pub unsafe extern "C" fn langtag_matches_basic(range: *const u8, range_len: usize, tag: *const u8, tag_len: usize) -> bool {
    calls::range::langtag_matches_basic(lent(range, range_len), lent(tag, tag_len))
}

#[no_mangle]
pub unsafe extern "C" fn langtag_matches_extended(range: *const u8, range_len: usize, tag: *const u8, tag_len: usize) -> bool {
    calls::range::langtag_matches_extended(lent(range, range_len), lent(tag, tag_len))
}

#[no_mangle]
pub unsafe extern "C" fn langtag_next_fallback(bytes: *const u8, len: usize, rest: *mut Span) -> bool {
    calls::fallback::langtag_next_fallback(lent(bytes, len), &mut *rest)
}

#[no_mangle]
pub unsafe extern "C" fn langtag_next_accepted(bytes: *const u8, len: usize, rest: *mut Span, range: *mut Span, weight: *mut u32) -> u32 {
    let mut new_range: Span = zeroed();
    let mut new_weight: u32 = zeroed();
    let answer = calls::accepted::langtag_next_accepted(lent(bytes, len), &mut *rest, &mut new_range, &mut new_weight);
    if answer != 0 {
        range.write(new_range);
        weight.write(new_weight);
    }
    answer
}

#[no_mangle]
pub unsafe extern "C" fn langtag_tag_for_header(header: *const u8, header_len: usize, bytes: *const u8, len: usize, tags: *const Span, tags_len: usize, index: *mut usize, bad: *mut Span) -> u32 {
    let mut new_index: usize = zeroed();
    let mut new_bad: Span = zeroed();
    let answer = calls::look_up::langtag_tag_for_header(lent(header, header_len), lent(bytes, len), lent(tags, tags_len), &mut new_index, &mut new_bad);
    index.write(new_index);
    bad.write(new_bad);
    answer
}

#[no_mangle]
pub unsafe extern "C" fn langtag_tag_for_header_lenient(header: *const u8, header_len: usize, bytes: *const u8, len: usize, tags: *const Span, tags_len: usize) -> usize {
    calls::look_up::langtag_tag_for_header_lenient(lent(header, header_len), lent(bytes, len), lent(tags, tags_len))
}
