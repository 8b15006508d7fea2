// Generated from crates/langtag_choice/src/region_group.rt. Do not edit.

//! How wide the group of regions is for which a tag was written.

use crate::erased::choice::matching_tables as tables;
use crate::erased::cldr::{index_of, matching_form, TagFields};
use crate::erased::scan::{case_insensitive_eq, into_smallcase};

/// The width of the world, which has all regions. It is more than that of any group.
const WORLD_WIDTH: usize = 999;

/// The width of what is no group with the region of the range, such as a country. It is more than
/// that of the world.
const NO_GROUP_WIDTH: usize = 1000;

/// Returns how many regions the group of regions of a matching form has, if the region of a range
/// is in it. It is [`WORLD_WIDTH`] for the world, and [`NO_GROUP_WIDTH`] for any other region.
pub(crate) fn region_width(range: &[u8], form: Option<TagFields<'_>>) -> usize {
    let code = region_in(form);
    match group_index(code) {
        Some(index) => width_of(index, region_in(matching_form(range))),
        None => width_unlisted(code),
    }
}

/// Returns the region of a matching form, which is empty if there is no form.
#[inline]
fn region_in(form: Option<TagFields<'_>>) -> &[u8] {
    match form {
        Some(form) => form.region,
        None => b"",
    }
}

/// Returns the index of the group of regions with a code.
#[inline]
fn group_index(code: &[u8]) -> Option<usize> {
    if is_country(code) {
        return None;
    }
    index_of(&tables::GROUP_KEYS, code)
}

/// Returns `true` only if a code is not that of a group: it has two letters, and is none of `EU`,
/// `EZ`, `QO` and `UN`. This is quick, and most tags with a region have that of a country.
#[inline]
fn is_country(code: &[u8]) -> bool {
    match code {
        [first, second] => !is_group_of_letters(into_smallcase(*first), into_smallcase(*second)),
        _ => false,
    }
}

/// Returns whether two lowercase letters are the code of a group.
fn is_group_of_letters(first: u8, second: u8) -> bool {
    (first == b'e' && (second == b'u' || second == b'z'))
        || ((first == b'q' && second == b'o') || (first == b'u' && second == b'n'))
}

/// Returns the width of a code that is not in the list of groups.
#[inline]
fn width_unlisted(code: &[u8]) -> usize {
    if case_insensitive_eq(b"001", code) {
        WORLD_WIDTH
    } else {
        NO_GROUP_WIDTH
    }
}

/// Returns the number of regions in the group at an index if it has a region, and
/// [`NO_GROUP_WIDTH`] otherwise.
#[inline]
fn width_of(index: usize, region: &[u8]) -> usize {
    let regions = regions_of(index);
    if index_of(regions, region).is_some() {
        regions.len()
    } else {
        NO_GROUP_WIDTH
    }
}

/// Returns the regions of the group at an index.
#[inline]
fn regions_of(index: usize) -> &'static [u32] {
    regions_at(&tables::GROUP_REGIONS, index)
}

/// Returns the entry at an index.
#[inline]
fn regions_at(groups: &'static [&'static [u32]], index: usize) -> &'static [u32] {
    groups[index]
}
