// Generated from crates/langtag_c/src/parent.rt. Do not edit.

//! The parents of a tag, in the caller's buffer (UTS #35, part 1, section 'Parent Locales').

use crate::calls::tag::tag_of;
use crate::erased::parent::nth_parent;

/// Writes the parent of a tag in CLDR to `buffer` (UTS #35, part 1, Parent Locales), and returns
/// its length: pt-PT for pt-AO, zh-Hant for zh-TW. If a catalogue has no string for a tag, it looks
/// for the parent of the tag next, and then for the other tags of `langtag_nth_parent`, which says
/// more. As with `langtag_canonical`, nothing is written if the buffer is too short.
///
/// Returns 0 and writes nothing if the tag has no parent, such as pt and x-a, or if the string is
/// not a tag.
#[inline]
pub fn langtag_parent(bytes: &[u8], buffer: &mut [u8]) -> usize {
    langtag_nth_parent(bytes, 1, buffer)
}

/// Writes the tag at an index of the chain of a tag and its parents in CLDR to `buffer`, and
/// returns its length. At 0 is the tag itself, and at 1 its parent. A catalogue looks for a string
/// in this order. The data are those of `langtag_cldr_version`. As with `langtag_canonical`,
/// nothing is written if the buffer is too short.
///
/// ```c
/// char tag[64];
/// size_t len;
/// for (uint32_t at = 0; (len = langtag_nth_parent("pt-Latn-AO", 10, at, tag, sizeof tag)) > 0 && len <= sizeof tag; at++)
///     printf("%.*s ", (int)len, tag); // pt-Latn-AO pt-AO pt-PT pt-Latn pt
/// ```
///
/// All tags of a chain are written in the same script if CLDR lists the language and does not
/// replace the region, as it does UK. So zh-Hant has no parent: zh is Simplified. A script that is
/// likely anyway goes first, and comes back before the language alone: zh-Hans-CN, zh-CN, zh-Hans,
/// zh. Extensions and private use are removed next, then each variant, the last one first, and then
/// the region. The variants come back with each parent: ca-ES-valencia, ca-ES, ca-valencia, ca.
/// Case is ignored. es-rUS, as Android writes es-US, stands before es-US and its parents.
///
/// If the folders of a catalogue name scripts, such as zh-Hans, call this function with the result
/// of `langtag_maximized`, which names the script of zh-CN. CLDR does not list replaced codes such
/// as iw and cmn, nor extended languages: replace them first by `langtag_locale_form`.
///
/// Returns 0 and writes nothing if the chain has no more tags, or if the string is not a tag.
pub fn langtag_nth_parent(bytes: &[u8], index: u32, buffer: &mut [u8]) -> usize {
    let Some(tag) = tag_of(bytes) else {
        return 0;
    };
    match nth_parent(tag, index as usize) {
        Some(parent) => parent.write(buffer),
        None => 0,
    }
}
