// Generated from crates/langtag_place/src/variant_blocks.rt. Do not edit.

//! Finds the first repeated variant of a long list of variants, block by block.

use crate::erased::place::variant::Variant;
use crate::erased::place::variants::Variants;
use crate::erased::place::variants_iter::VariantsIter;
use crate::erased::scan::folded_number;
use core::mem;

/// Returns the index of the first of these variants that equals an earlier variant, ignoring case.
/// A block has `BLOCK` variants; the last block may have fewer.
///
/// All variants are read once for each block. A block stores the numbers of its variants in
/// ascending order, and a flag for each number that says whether it has occurred. So a binary
/// search finds each variant in few steps, whatever the order of the variants is.
// This function is not inlined, so that callers with few variants do not use its stack.
#[inline(never)]
pub(crate) fn first_repeated_of_many<const BLOCK: usize>(variants: Variants<'_>) -> Option<usize> {
    let mut numbers = [0; BLOCK];
    let mut rest = variants.iter();
    let count = variants.iter().count();
    let mut start = 0;
    while start < count {
        let size = BLOCK.min(count - start);
        let block = &mut numbers[..size];
        fill(block, &mut rest);
        block.sort_unstable();
        let repeated = first_met_again::<BLOCK>(block, variants, start);
        if repeated.is_some() {
            return repeated;
        }
        start += size;
    }
    None
}

/// Fills a block with the numbers of the next variants.
#[inline]
fn fill(block: &mut [u64], rest: &mut VariantsIter<'_>) {
    for number in block.iter_mut() {
        if let Some(variant) = rest.next() {
            *number = number_of(variant);
        }
    }
}

/// Returns the index of the first variant up to the end of a block that equals an earlier variant,
/// ignoring case. The block has, in ascending order, the numbers of the variants from the index
/// `start` on. No variant before `start` equals an earlier variant.
#[inline]
fn first_met_again<const BLOCK: usize>(
    block: &[u64],
    variants: Variants<'_>,
    start: usize,
) -> Option<usize> {
    let mut met = [false; BLOCK];
    for (index, variant) in variants.iter().enumerate() {
        if index == start + block.len() {
            break;
        }
        if meet(block, &mut met, number_of(variant)) {
            return Some(index);
        }
    }
    None
}

/// Returns whether a number of a block has occurred before, and marks it as having occurred. If the
/// block has the number twice, only its first index is marked.
#[inline]
fn meet(block: &[u64], met: &mut [bool], number: u64) -> bool {
    let place = place_of(number, block);
    if place == block.len() || block[place] != number {
        return false;
    }
    mem::replace(&mut met[place], true)
}

/// Returns the first index of a number in a block, or the index at which it would have to be
/// inserted.
#[inline]
fn place_of(number: u64, block: &[u64]) -> usize {
    block.partition_point(|other| *other < number)
}

/// Returns the number that [`folded_number`] gives for a variant, which has at most eight bytes.
#[inline]
fn number_of(variant: Variant<'_>) -> u64 {
    folded_number(variant.as_bytes())
}
