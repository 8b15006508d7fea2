// Generated from crates/langtag_scan/src/state.rt. Do not edit.

//! What the recogniser knows about the bytes that it has read: a state of the tables (RFC 5646
//! section 2.1).
//!
//! ```text
//! langtag    = language ["-" script] ["-" region] *("-" variant) *("-" extension) ["-" privateuse]
//! privateuse = "x" 1*("-" (1*8alphanum))
//!
//! after                         a subtag that is        leads to
//! Start                         primary                 Language(0), or Language(3) if it has four letters or more
//! Start                         mark                    AfterFirstMark
//! Language(n), Extended(n)      extended, n < 3         Extended(n + 1)
//! Language .. Extended          script                  AfterScript
//! Language .. AfterScript       region                  AfterRegion
//! Language .. AfterVariant      variant                 AfterVariant
//! Language .. AfterVariant      singleton               AfterSingleton
//! Language .. AfterVariant      mark                    AfterMark
//! AfterSingleton, InExtension   subtag of an extension  InExtension
//! InExtension                   singleton               AfterSingleton
//! InExtension                   mark                    AfterMark
//! AfterMark, InPrivate          private use subtag      InPrivate
//! AfterFirstMark, InPrivateTag  private use subtag      InPrivateTag
//! ```
//!
//! A tag may end after any stage except `Start`, `AfterSingleton`, `AfterMark` and
//! `AfterFirstMark`.
//!
//! A state represents all positions after which the same bytes may follow and the same parts end. A
//! position consists of a stage, what is known about the subtag after that stage, and the irregular
//! tag that the bytes may become. It is proved that each step from one state to the next matches
//! the step between the positions that the states represent.

use crate::erased::scan::states::{CLASSES, NONE, START, TABLES};

/// A state, by its number in the tables.
#[derive(Clone, Copy)]
pub(crate) struct State {
    number: usize,
}

/// What a string is, by the state in which the recogniser is at the end of the string.
#[derive(Clone, Copy)]
pub(crate) enum Ending {
    NoTag,
    /// A normal tag, with the index of its last part in the order of `Ends`.
    Normal(usize),
    PrivateUse,
    /// An irregular tag, with its index in the table.
    Irregular(usize),
}

impl State {
    /// Returns the state before the first byte.
    #[inline]
    pub(crate) const fn start() -> Self {
        State { number: START }
    }

    /// Returns the state after one more byte, or `None` if no tag begins with these bytes.
    #[inline(always)]
    pub(crate) const fn after(self, byte: u8) -> Option<Self> {
        self.after_class(CLASSES[byte as usize] as usize)
    }

    /// Returns the state after one more byte, which has this class, or `None` if no tag begins with
    /// these bytes.
    #[inline(always)]
    const fn after_class(self, class: usize) -> Option<Self> {
        let number = TABLES.next[class][self.number] as usize;
        if number < NONE {
            Some(State { number })
        } else {
            None
        }
    }

    /// Returns the index, in the order of `Ends`, of the part that the last byte ended. Returns 5
    /// if that byte is not a hyphen after a part.
    #[inline(always)]
    pub(crate) const fn part_before(self) -> usize {
        crate::erased::scan::states::PARTS[self.number] as usize
    }

    /// Returns what the string is if it ends after the bytes that were read.
    #[inline(always)]
    pub(crate) const fn ending(self) -> Ending {
        match TABLES.kinds[self.number] {
            place if place < 6 => Ending::Normal(place as usize),
            6 => Ending::NoTag,
            7 => Ending::PrivateUse,
            kind => Ending::Irregular(kind as usize - 8),
        }
    }
}
