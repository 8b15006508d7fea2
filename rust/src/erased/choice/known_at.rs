// Generated from crates/langtag_choice/src/known_at.rt. Do not edit.

//! The entry of a list as the choice reads it, and the candidate after it was tried.

use crate::erased::choice::candidate::Candidate;
use crate::erased::choice::improve::improve_near;
use crate::erased::choice::known_tag::KnownTag;
use crate::erased::choice::range_language::RangeLanguage;
use crate::erased::choice::tag_list::TagList;
use crate::erased::choice::wish::Wish;

/// Returns the tag at an index of a list as the choice reads it.
fn known_at<T: TagList>(tags: &T, index: usize) -> KnownTag<'_> {
    match tags.form_at(index) {
        Some(prepared) => KnownTag::Prepared(tags.bytes_at(index), prepared),
        None => KnownTag::Text(tags.bytes_at(index)),
    }
}

/// Returns whether the first letters of an entry show that it cannot serve a range with this
/// language.
#[inline(always)]
fn is_far_at<T: TagList>(
    tags: &T,
    wish: &Wish<'_>,
    own: &Option<RangeLanguage>,
    index: usize,
) -> bool {
    match tags.form_at(index) {
        Some(prepared) => prepared.is_far_from(wish, own),
        None => wish.is_far_from(tags.bytes_at(index)),
    }
}

/// Returns the first index from `from` on of an entry that may serve a range. The function is not
/// inlined, so that its loop has no calls and keeps what it compares in registers.
#[inline(never)]
pub(crate) fn next_near<T: TagList>(tags: &T, wish: &Wish<'_>, from: usize) -> Option<usize> {
    let own = wish.language;
    for index in from..tags.count() {
        if !is_far_at(tags, wish, &own, index) {
            return Some(index);
        }
    }
    None
}

/// Replaces the candidate by the entry at an index, if the entry may serve a range and is better.
/// It does not check that the entry is a tag.
#[inline]
pub(crate) fn improve_at<'a, 't, T: TagList>(
    found: &mut Option<Candidate<'a, 't>>,
    wish: &Wish<'a>,
    tags: &'t T,
    index: usize,
) {
    improve_near(found, wish, known_at(tags, index), index);
}

/// Replaces the candidate as [`improve_at`] does, after a test that is quicker if the entry is far.
#[inline(always)]
pub(crate) fn improve_entry<'a, 't, T: TagList>(
    found: &mut Option<Candidate<'a, 't>>,
    wish: &Wish<'a>,
    tags: &'t T,
    index: usize,
) {
    if !is_far_at(tags, wish, &wish.language, index) {
        improve_at(found, wish, tags, index);
    }
}
