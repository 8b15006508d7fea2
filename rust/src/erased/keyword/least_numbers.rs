// Generated from crates/langtag_keyword/src/least_numbers.rt. Do not edit.

//! The least of many numbers, in little memory.

use crate::erased::scan::folded_number;
use crate::erased::text::Output;

/// Room for the numbers of a few subtags.
pub const FEW: usize = 32;

/// Room for the numbers of many subtags. They take 8 KiB of stack.
pub const MANY: usize = 1024;

/// The least of the numbers above `last` that were offered. If there is no room for all, those
/// above `limit` are left out.
pub struct LeastNumbers<const ROOM: usize> {
    numbers: [u64; ROOM],
    count: usize,
    last: u64,
    limit: u64,
}

impl<const ROOM: usize> LeastNumbers<ROOM> {
    /// Returns room for the least of all numbers but zero.
    #[inline]
    pub(crate) fn new() -> LeastNumbers<ROOM> {
        LeastNumbers {
            numbers: [0; ROOM],
            count: 0,
            last: 0,
            limit: u64::MAX,
        }
    }

    /// Keeps a number if it is in range. If there is no room left then, only the lower half of the
    /// numbers is kept.
    pub fn offer(&mut self, number: u64) {
        if number <= self.last || number > self.limit {
            return;
        }
        self.numbers[self.count] = number;
        self.count += 1;
        if self.count < ROOM {
            return;
        }
        self.count = settle(&mut self.numbers);
        if self.count > ROOM / 2 {
            self.count = ROOM / 2;
            self.limit = self.numbers[ROOM / 2 - 1];
        }
    }

    /// Puts the numbers that are kept in ascending order, each once.
    #[inline]
    pub fn sort(&mut self) {
        self.count = settle(&mut self.numbers[..self.count]);
    }

    /// Returns the numbers that are kept.
    #[inline]
    #[must_use]
    pub fn kept(&self) -> &[u64] {
        &self.numbers[..self.count]
    }

    /// Makes room for the numbers above those that are kept. Returns whether such numbers may have
    /// been left out.
    #[inline]
    pub fn advance(&mut self) -> bool {
        self.last = self.limit;
        self.limit = u64::MAX;
        self.count = 0;
        self.last < u64::MAX
    }
}

/// Puts numbers in ascending order, each once and without zero. Returns how many these are.
#[inline]
fn settle(numbers: &mut [u64]) -> usize {
    numbers.sort_unstable();
    keep_rising(numbers)
}

/// Moves each number that is greater than all numbers before it, and than zero, to the start.
/// Returns how many these are.
fn keep_rising(numbers: &mut [u64]) -> usize {
    let mut last = 0;
    let mut count = 0;
    for index in 0..numbers.len() {
        let number = numbers[index];
        if number > last {
            numbers[count] = number;
            count += 1;
            last = number;
        }
    }
    count
}

/// Returns the number of a subtag. Numbers are in the order of their subtags, ignoring case.
#[inline]
#[must_use]
pub fn order_number(subtag: &[u8]) -> u64 {
    folded_number(subtag) << (64 - 8 * subtag.len())
}

/// Appends the subtags of numbers.
#[inline]
pub fn push_numbers(out: &mut Output<'_>, numbers: &[u64]) {
    for number in numbers {
        push_number(out, *number);
    }
}

/// Appends the subtag of a number.
#[inline]
fn push_number(out: &mut Output<'_>, number: u64) {
    out.push_subtag(b"");
    for byte in number.to_be_bytes() {
        if byte > 0 {
            out.push(&[byte]);
        }
    }
}
