// Generated from crates/langtag_scan/src/slice_reader.rt. Do not edit.

//! The recogniser of a slice of bytes. It calls no method of a trait, so rustc can call it when it
//! compiles a program.

use crate::erased::scan::ends::Marks;
use crate::erased::scan::finding::Finding;
use crate::erased::scan::found::Found;
use crate::erased::scan::state::{Ending, State};

/// Returns what bytes are, as [`recognise`](crate::scan::recognise) does, or `None` if they are not
/// a tag.
#[inline(always)]
#[must_use]
pub const fn read_bytes(bytes: &[u8]) -> Option<Found> {
    let len = bytes.len();
    if len == 0 {
        return None;
    }
    let Some(mut state) = State::start().after(bytes[0]) else {
        return None;
    };
    let mut marks = Marks::new();
    let mut index = 1;
    while index < len {
        let Some(next) = state.after(bytes[index]) else {
            return None;
        };
        state = next;
        marks.set(state.part_before(), index);
        index += 1;
    }
    let finding = match state.ending() {
        Ending::NoTag => return None,
        Ending::Normal(last) => {
            marks.set(last, len);
            Finding::Normal(marks.ends(len))
        }
        Ending::PrivateUse => Finding::PrivateUse,
        Ending::Irregular(index) => Finding::Irregular(index),
    };
    Some(Found { finding })
}
