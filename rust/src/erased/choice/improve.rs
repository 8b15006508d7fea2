// Generated from crates/langtag_choice/src/improve.rt. Do not edit.

//! Improving the candidate by one more tag.

use crate::erased::choice::candidate::{Candidate, Rank, Service};
use crate::erased::choice::known_tag::KnownTag;
use crate::erased::choice::nearness::measured;
use crate::erased::choice::wish::Wish;

/// Returns the distance below which a tag may be better than the candidate, for a range with this
/// `weight` and `place`. It is 0 if no tag can be better, and 51 if even a tag that only lookup
/// finds may be better.
pub(crate) fn limit(found: &Option<Candidate<'_, '_>>, weight: u32, place: usize) -> u8 {
    let lacking = lack(weight);
    match found {
        Some(found) if found.rank.is_wanted_more(lacking, place) => {
            found.rank.service.least_distance()
        }
        Some(found) if found.rank.is_for(lacking, place) => nearer_limit(found),
        _ => 51,
    }
}

/// Returns the distance below which another tag may be better than the candidate, for the same
/// range.
#[inline]
fn nearer_limit(found: &Candidate<'_, '_>) -> u8 {
    let least = found.rank.service.least_distance();
    least.max(found.rank.distance.saturating_add(1))
}

/// Returns 1 minus a weight, in thousandths.
#[inline]
fn lack(weight: u32) -> u32 {
    1000_u32.saturating_sub(weight)
}

/// Replaces the candidate by a tag, if the tag may serve a range and is better. `index` is the
/// index of the tag in its list. The function is not inlined, so that a test before it can be
/// inlined in a loop over tags.
#[inline(never)]
pub(crate) fn improve_near<'a, 't>(
    found: &mut Option<Candidate<'a, 't>>,
    wish: &Wish<'a>,
    tag: KnownTag<'t>,
    index: usize,
) {
    let limit = limit(found, wish.weight, wish.place);
    let Some(next) = as_candidate(limit, wish, tag, index) else {
        return;
    };
    if is_first(&next, found) {
        *found = Some(next);
    }
}

/// Returns whether a candidate is better than the found candidate, or no candidate was found.
#[inline]
fn is_first(next: &Candidate<'_, '_>, found: &Option<Candidate<'_, '_>>) -> bool {
    match found {
        Some(found) => next.goes_before(found),
        None => true,
    }
}

/// Returns the string at an index as a candidate for a range, if the string may serve the range and
/// is nearer than a limit.
fn as_candidate<'a, 't>(
    limit: u8,
    wish: &Wish<'a>,
    tag: KnownTag<'t>,
    index: usize,
) -> Option<Candidate<'a, 't>> {
    let near = measured(limit, wish, tag)?;
    let rank = Rank {
        service: Service::at(near.distance),
        lack: lack(wish.weight),
        place: wish.place,
        distance: near.distance,
    };
    Some(Candidate {
        rank,
        range: wish.range,
        variants: wish.variants,
        tag: tag.bytes(),
        form: near.form,
        unlikely: tag.kept_unlikely(),
        index,
    })
}
