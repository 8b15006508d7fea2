// Generated from crates/langtag_keyword/src/alphabet.rt. Do not edit.

//! Subtags in lowercase and in alphabetical order, written to an output.

use crate::erased::keyword::least_numbers::{order_number, push_numbers, LeastNumbers, FEW, MANY};
use crate::erased::keyword::subtags::split_first;
use crate::erased::scan::{into_smallcase, Subtags};
use crate::erased::text::Output;

/// Appends subtags in lowercase and in alphabetical order, each once.
#[inline]
pub(crate) fn push_in_alphabet(out: &mut Output<'_>, rest: Option<&str>) {
    if are_few(rest) {
        return push_with_room::<FEW>(out, rest);
    }
    push_with_room::<MANY>(out, rest);
}

/// Returns whether subtags take so few bytes that room for [`FEW`] numbers is enough.
#[inline]
#[must_use]
pub fn are_few(rest: Option<&str>) -> bool {
    rest.is_none_or(|text| text.len() <= 128)
}

/// Appends what [`push_in_alphabet`] appends. Each walk over the subtags finds the next `ROOM / 2`
/// of them, or more.
// This function is not inlined, so that callers with few subtags do not use the stack that many take.
#[inline(never)]
fn push_with_room<const ROOM: usize>(out: &mut Output<'_>, rest: Option<&str>) {
    let mut least = LeastNumbers::<ROOM>::new();
    let mut more = true;
    while more {
        offer_each(&mut least, rest);
        least.sort();
        push_numbers(out, least.kept());
        more = least.advance();
    }
}

/// Offers the number of each subtag to `least`.
fn offer_each<const ROOM: usize>(least: &mut LeastNumbers<ROOM>, rest: Option<&str>) {
    let mut rest = rest;
    while let Some(text) = rest {
        let (subtag, others) = split_first(text);
        least.offer(order_number(subtag.as_bytes()));
        rest = others;
    }
}

/// Returns whether a string comes before another in alphabetical order, ignoring case: `foo` comes
/// before `foobar`.
#[must_use]
pub fn is_before(a: &[u8], b: &[u8]) -> bool {
    let mut a = a;
    let mut b = b;
    while let ([x, others_a @ ..], [y, others_b @ ..]) = (a, b) {
        let (x, y) = (into_smallcase(*x), into_smallcase(*y));
        if x != y {
            return x < y;
        }
        a = others_a;
        b = others_b;
    }
    a.len() < b.len()
}

/// Appends each subtag of a string in lowercase.
#[inline]
pub(crate) fn push_each_lowercase(out: &mut Output<'_>, text: &str) {
    for subtag in Subtags::new(text) {
        push_lowercase(out, subtag);
    }
}

/// Appends a subtag in lowercase, after a hyphen if there is text before it.
#[inline]
pub(crate) fn push_lowercase(out: &mut Output<'_>, subtag: &str) {
    out.push_subtag(b"");
    for byte in subtag.as_bytes() {
        out.push(&[into_smallcase(*byte)]);
    }
}
