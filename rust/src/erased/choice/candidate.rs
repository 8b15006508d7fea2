// Generated from crates/langtag_choice/src/candidate.rt. Do not edit.

//! A tag that may serve a range.

use crate::erased::choice::as_read::lost_as_read;
use crate::erased::choice::likely_region::unlikely;
use crate::erased::choice::nearness::lost;
use crate::erased::choice::region_group::region_width;
use crate::erased::choice::transformed::is_transformed;
use crate::erased::choice::variants::{has_variants, lacking_variants};
use crate::erased::cldr::TagFields;
use core::cmp::Ordering;

/// How well a tag serves a range, the best first: at a distance below 16, at a distance below 50,
/// or because only lookup finds it.
#[derive(Clone, Copy, PartialEq, Eq, PartialOrd, Ord)]
pub(crate) enum Service {
    Near,
    Acceptable,
    LookUp,
}

impl Service {
    /// Returns how well a tag serves a range at a distance, which is 50 if only lookup finds the
    /// tag.
    #[inline]
    pub(crate) fn at(distance: u8) -> Service {
        if distance < 16 {
            Service::Near
        } else if distance < 50 {
            Service::Acceptable
        } else {
            Service::LookUp
        }
    }

    /// Returns the least distance at which a tag serves a range in this way.
    #[inline]
    pub(crate) fn least_distance(self) -> u8 {
        match self {
            Service::Near => 0,
            Service::Acceptable => 16,
            Service::LookUp => 50,
        }
    }
}

/// The part of a candidate that is compared first. The lesser of two ranks is better, and the first
/// field in which they differ decides.
#[derive(Clone, Copy, PartialEq, Eq, PartialOrd, Ord)]
pub(crate) struct Rank {
    pub(crate) service: Service,
    /// 1 minus the weight of the range, in thousandths.
    pub(crate) lack: u32,
    /// The number of ranges before the range.
    pub(crate) place: usize,
    /// The distance of the tag, which is 50 if only lookup finds the tag.
    pub(crate) distance: u8,
}

impl Rank {
    /// Returns whether the range has more weight than another range, or the same weight and fewer
    /// ranges before it. The other range is given by its own `lack` and `place`.
    #[inline]
    pub(crate) fn is_wanted_more(self, lack: u32, place: usize) -> bool {
        self.lack < lack || (self.lack == lack && self.place < place)
    }

    /// Returns whether the range is the one with this `lack` and `place`.
    #[inline]
    pub(crate) fn is_for(self, lack: u32, place: usize) -> bool {
        self.lack == lack && self.place == place
    }
}

/// A tag that may serve a range, with the tag's index and matching form.
#[derive(Clone, Copy)]
pub(crate) struct Candidate<'a, 't> {
    pub(crate) rank: Rank,
    pub(crate) range: &'a [u8],
    /// The number of variants of the range.
    pub(crate) variants: usize,
    pub(crate) tag: &'t [u8],
    pub(crate) form: Option<TagFields<'t>>,
    /// How unlikely the region of the tag is, if this was kept.
    pub(crate) unlikely: Option<u8>,
    pub(crate) index: usize,
}

impl Candidate<'_, '_> {
    /// Returns whether this candidate is better than another.
    pub(crate) fn goes_before(&self, other: &Candidate<'_, '_>) -> bool {
        match self.rank.cmp(&other.rank) {
            Ordering::Less => true,
            Ordering::Greater => false,
            Ordering::Equal => self.breaks_tie(other),
        }
    }

    /// Returns whether this candidate is better than another of the same rank. It compares how many
    /// of the variants of the range the tags lack, then whether they are translations for which the
    /// range does not ask, and then how much lookup removes from the range.
    #[inline(never)]
    fn breaks_tie(&self, other: &Candidate<'_, '_>) -> bool {
        let (lacking, others_lacking) = (self.lacking(), other.lacking());
        if lacking != others_lacking {
            return lacking < others_lacking;
        }
        let (transformed, others_transformed) = (self.is_unasked(), other.is_unasked());
        if transformed != others_transformed {
            return others_transformed;
        }
        self.breaks_tie_by_lookup(other)
    }

    /// Returns whether this candidate is better than another, if they differ only in what is
    /// compared last: how much lookup removes from the range, then how wide the group of regions
    /// is, then how likely the region is, and then the index. Lookup first reads the languages as
    /// CLDR replaces them, and then as they are written.
    fn breaks_tie_by_lookup(&self, other: &Candidate<'_, '_>) -> bool {
        let (lost, others_lost) = (lost(self.range, self.tag), lost(other.range, other.tag));
        let read = lost_as_read(self.range, self.tag, lost);
        let others_read = lost_as_read(other.range, other.tag, others_lost);
        if read != others_read {
            return read < others_read;
        }
        if lost != others_lost {
            return lost < others_lost;
        }
        self.breaks_tie_by_region(other)
    }

    /// Returns whether this candidate is better than another, if lookup removes as much from the
    /// range for each.
    fn breaks_tie_by_region(&self, other: &Candidate<'_, '_>) -> bool {
        let (width, others_width) = (self.width(), other.width());
        if width != others_width {
            return width < others_width;
        }
        let (unlikely, others) = (self.unlikely(), other.unlikely());
        if unlikely != others {
            return unlikely < others;
        }
        self.index < other.index
    }

    /// Returns whether the tag is a translation for which the range does not ask.
    #[inline]
    fn is_unasked(&self) -> bool {
        is_transformed(self.tag) && !is_transformed(self.range)
    }

    /// Returns how many regions the tag's group of regions has, if the region of the range is in
    /// it.
    #[inline]
    fn width(&self) -> usize {
        region_width(self.range, self.form)
    }

    /// Returns how many of the variants of the range the tag lacks.
    #[inline]
    fn lacking(&self) -> usize {
        if self.variants == 0 || !has_variants(self.tag) {
            return self.variants;
        }
        lacking_variants(self.range, self.tag)
    }

    /// Returns how unlikely the region of the tag is.
    #[inline]
    fn unlikely(&self) -> u8 {
        self.unlikely.unwrap_or_else(|| unlikely(self.form))
    }
}

/// Returns the index of the tag that was found.
#[inline]
pub(crate) fn index_of(found: Option<Candidate<'_, '_>>) -> Option<usize> {
    Some(found?.index)
}
