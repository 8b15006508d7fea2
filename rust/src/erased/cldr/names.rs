// Generated from crates/langtag_cldr/src/names.rt. Do not edit.

//! The names of languages, scripts and regions, by their positions in the tables.

use crate::erased::cldr::tables;

/// Returns the codes of the scripts in the likely subtags, in alphabetical order.
#[must_use]
pub fn script_codes() -> &'static [[u8; 4]] {
    &tables::SCRIPT_NAMES
}

/// Returns the name at an index.
pub(crate) fn name_at(names: &'static [[u8; 4]], index: usize) -> &'static [u8] {
    let name = &names[index];
    &name[..name_length(name)]
}

/// Reads the index of a name from a column of a table, and returns the name.
pub(crate) fn name_in(
    names: &'static [[u8; 4]],
    column: &'static [u8],
    index: usize,
) -> &'static [u8] {
    name_at(names, usize::from(column[index]))
}

/// Returns the number of letters in a name, without the zeros that fill it up to four bytes.
fn name_length(name: &[u8; 4]) -> usize {
    if name[1] == 0 {
        return 0;
    }
    if name[2] == 0 {
        return 2;
    }
    if name[3] == 0 {
        3
    } else {
        4
    }
}
