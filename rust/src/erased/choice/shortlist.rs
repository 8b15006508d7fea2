// Generated from crates/langtag_choice/src/shortlist.rt. Do not edit.

//! The best candidates that were found, at most one for each tag, in no order. An empty entry is
//! worse than a candidate.

use crate::erased::choice::candidate::Candidate;
use crate::erased::choice::known_at::improve_entry;
use crate::erased::choice::tag_list::TagList;
use crate::erased::choice::wish::Wish;

/// Puts the tag at an index among the candidates, if it may serve a range and is better than the
/// worst of them. Returns the place of the worst.
pub(crate) fn improve<'a, 't, T: TagList>(
    best: &mut [Option<Candidate<'a, 't>>],
    worst: usize,
    wish: &Wish<'a>,
    tags: &'t T,
    index: usize,
) -> usize {
    let mut next = best[worst];
    improve_entry(&mut next, wish, tags, index);
    let Some(candidate) = next else {
        return worst;
    };
    if candidate.index != index {
        return worst;
    }
    put(best, worst, candidate)
}

/// Puts a candidate in the place of another candidate of its tag, or else of the worst, if it is
/// better. Returns the place of the worst.
fn put<'a, 't>(
    best: &mut [Option<Candidate<'a, 't>>],
    worst: usize,
    candidate: Candidate<'a, 't>,
) -> usize {
    let place = place_of(best, candidate.index).unwrap_or(worst);
    let next = Some(candidate);
    if !is_before(&next, &best[place]) {
        return worst;
    }
    best[place] = next;
    worst_after(best, worst, place)
}

/// Returns the place of the worst candidate after the entry at `place` got better, where `worst`
/// was the place of the worst before. If another entry got better, the worst stays the worst.
#[inline]
fn worst_after(best: &[Option<Candidate<'_, '_>>], worst: usize, place: usize) -> usize {
    if worst == place {
        worst_of(best)
    } else {
        worst
    }
}

/// Takes out the best candidate.
#[inline]
pub(crate) fn take_first<'a, 't>(
    best: &mut [Option<Candidate<'a, 't>>],
) -> Option<Candidate<'a, 't>> {
    let first = first_of(best);
    let found = best[first];
    best[first] = None;
    found
}

/// Returns whether a candidate is better than another, or there is no other.
fn is_before(next: &Option<Candidate<'_, '_>>, other: &Option<Candidate<'_, '_>>) -> bool {
    match (next, other) {
        (Some(next), Some(other)) => next.goes_before(other),
        (Some(_), None) => true,
        (None, _) => false,
    }
}

/// Returns the place of the candidate of the tag at an index.
fn place_of(best: &[Option<Candidate<'_, '_>>], index: usize) -> Option<usize> {
    for place in 0..best.len() {
        if let Some(other) = &best[place] {
            if other.index == index {
                return Some(place);
            }
        }
    }
    None
}

/// Returns the place of the worst candidate, or of the last empty entry if there is one. So the
/// entries are filled from the last to the first, and no candidates are compared before all are
/// filled.
pub(crate) fn worst_of(best: &[Option<Candidate<'_, '_>>]) -> usize {
    let mut worst = 0;
    for place in 1..best.len() {
        if !is_before(&best[place], &best[worst]) {
            worst = place;
        }
    }
    worst
}

/// Returns the place of the best candidate.
fn first_of(best: &[Option<Candidate<'_, '_>>]) -> usize {
    let mut first = 0;
    for place in 1..best.len() {
        if is_before(&best[place], &best[first]) {
            first = place;
        }
    }
    first
}
