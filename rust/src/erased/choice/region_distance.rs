// Generated from crates/langtag_choice/src/region_distance.rt. Do not edit.

//! The distance of regions, which for some languages depends on CLDR's sets of regions.

use crate::erased::choice::matching_tables as tables;
use crate::erased::cldr::{index_of, TagFields};
use crate::erased::scan::case_insensitive_eq;

/// Returns the distance of two regions, each with its language.
#[inline]
pub(crate) fn region_distance(desired: TagFields<'_>, supported: TagFields<'_>) -> u8 {
    if case_insensitive_eq(desired.region, supported.region) {
        return 0;
    }
    if !case_insensitive_eq(desired.language, supported.language) {
        return 4;
    }
    by_language(desired, supported)
}

/// Returns the distance of two different regions of one language.
fn by_language(desired: TagFields<'_>, supported: TagFields<'_>) -> u8 {
    let language = desired.language;
    if case_insensitive_eq(b"ar", language) {
        return by_side(SetName::Maghreb, desired, supported);
    }
    if case_insensitive_eq(b"en", language) {
        return english(desired, supported);
    }
    if case_insensitive_eq(b"es", language) || case_insensitive_eq(b"pt", language) {
        return by_side(SetName::Americas, desired, supported);
    }
    if case_insensitive_eq(b"zh", language)
        && (case_insensitive_eq(b"Hant", desired.script)
            && case_insensitive_eq(b"Hant", supported.script))
    {
        return by_side(SetName::HongKongAndMacao, desired, supported);
    }
    4
}

/// Returns the distance of two regions by a set: it is smaller if both are in the set, or both are
/// outside it.
#[inline]
fn by_side(set: SetName, a: TagFields<'_>, b: TagFields<'_>) -> u8 {
    if on_one_side(set, a, b) {
        4
    } else {
        5
    }
}

/// Returns the distance of two regions for English: `GB` is nearer to the regions outside the set
/// `$enUS` than other regions are.
#[inline]
fn english(a: TagFields<'_>, b: TagFields<'_>) -> u8 {
    if is_british(a, b) || is_british(b, a) {
        return 3;
    }
    by_side(SetName::UnitedStates, a, b)
}

#[inline]
fn is_british(a: TagFields<'_>, b: TagFields<'_>) -> bool {
    case_insensitive_eq(b"GB", a.region) && SetName::UnitedStates.is_outside(b)
}

/// Returns whether both regions are inside a set, or both are outside it.
#[inline]
fn on_one_side(set: SetName, a: TagFields<'_>, b: TagFields<'_>) -> bool {
    (set.is_inside(a) && set.is_inside(b)) || (set.is_outside(a) && set.is_outside(b))
}

/// A set of regions, as numbers in ascending order.
#[derive(Clone, Copy)]
struct RegionSet {
    /// The regions of the set, and the groups whose countries are all in it.
    inside: &'static [u32],
    /// The groups with some countries in the set, but not all.
    partly: &'static [u32],
}

/// The sets of regions that the rules name.
#[derive(Clone, Copy)]
pub(crate) enum SetName {
    Maghreb,
    UnitedStates,
    Americas,
    HongKongAndMacao,
}

impl SetName {
    fn regions(self) -> RegionSet {
        match self {
            SetName::Maghreb => RegionSet {
                inside: &tables::MAGHREB_INSIDE,
                partly: &tables::MAGHREB_PARTLY,
            },
            SetName::UnitedStates => RegionSet {
                inside: &tables::EN_US_INSIDE,
                partly: &tables::EN_US_PARTLY,
            },
            SetName::Americas => RegionSet {
                inside: &tables::AMERICAS_INSIDE,
                partly: &tables::AMERICAS_PARTLY,
            },
            SetName::HongKongAndMacao => RegionSet {
                inside: &tables::CNSAR_INSIDE,
                partly: &tables::CNSAR_PARTLY,
            },
        }
    }

    #[inline]
    fn is_inside(self, fields: TagFields<'_>) -> bool {
        index_of(self.regions().inside, fields.region).is_some()
    }

    #[inline]
    fn is_partly_inside(self, fields: TagFields<'_>) -> bool {
        index_of(self.regions().partly, fields.region).is_some()
    }

    #[inline]
    fn is_outside(self, fields: TagFields<'_>) -> bool {
        !self.is_inside(fields) && !self.is_partly_inside(fields)
    }
}
