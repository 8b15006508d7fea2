// Generated from crates/langtag_range/src/basic_form.rt. Do not edit.

//! The basic range for an extended range (RFC 4647 section 3.2).

/// Returns whether a tag equals a range, ignoring case and each `-*`.
#[inline]
#[must_use]
pub fn is_range(tag: &[u8], range: &[u8]) -> bool {
    let mut tag = tag;
    let mut range = range;
    while let [first, others @ ..] = range {
        if begins_with_wildcard(range) {
            range = &range[2..];
            continue;
        }
        let [byte, rest @ ..] = tag else {
            return false;
        };
        if !byte.eq_ignore_ascii_case(first) {
            return false;
        }
        tag = rest;
        range = others;
    }
    tag.is_empty()
}

/// Returns whether a string begins with `-*`.
#[inline]
fn begins_with_wildcard(text: &[u8]) -> bool {
    matches!(text, [b'-', b'*', ..])
}
