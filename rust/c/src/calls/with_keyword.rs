// Generated from crates/langtag_c/src/with_keyword.rt. Do not edit.

//! A tag with a keyword of the extension `u` set or removed, written to the caller's buffer (RFC
//! 6067 section 2.1).

use crate::calls::tag::tag_of;
use crate::erased::unicode::{write_with_keyword, write_without_keyword};

/// Writes a normal tag with a value of a key of the extension u to `buffer` ([RFC 6067 section
/// 2.1]), and returns the length of the new tag. An empty value means true: the key then has no
/// value. `langtag_without_keyword` removes a key.
///
/// ```c
/// char buffer[64];
/// size_t len = langtag_with_keyword("th-u-ca-gregory-nu-thai", 23, "ca", 2, "buddhist", 8, buffer, sizeof buffer);
/// if (len > 0 && len <= sizeof buffer) printf("%.*s\n", (int)len, buffer); // th-u-ca-buddhist-nu-thai
/// ```
///
/// A key that the tag already has keeps its position and its case, and its repetitions are removed.
/// A new key is put before the first greater key, and a new extension u before the first greater
/// singleton. All other bytes stay.
///
/// As with snprintf, the result may be greater than `buffer_len`. It is then the size that is
/// needed, and nothing is written. A size of tag_len + key_len + value_len + 4 is always enough.
/// This sum must fit into a size_t. No NUL is written, and bytes after the new tag are left
/// unchanged.
///
/// Returns 0 and writes nothing in three cases. To find out which, ask in this order:
///
/// 1. The key, such as c4, does not consist of a letter or digit and then a letter:
/// `langtag_without_keyword`("und", 3,
///    key, key_len, buffer, 0) returns 0.
/// 2. A subtag of the value does not have three to eight letters or digits: this call with the tag
/// "und" returns 0. 3. Otherwise the tag is not `LANGTAG_NORMAL`, and has no place for a keyword.
///
/// [RFC 6067 section 2.1]: https://www.rfc-editor.org/rfc/rfc6067#section-2.1
pub fn langtag_with_keyword(tag: &[u8], key: &[u8], value: &[u8], buffer: &mut [u8]) -> usize {
    let Ok(key) = core::str::from_utf8(key) else {
        return 0;
    };
    let Ok(value) = core::str::from_utf8(value) else {
        return 0;
    };
    let Some(tag) = tag_of(tag) else {
        return 0;
    };
    match write_with_keyword(tag, key, value, buffer) {
        Ok(len) => len,
        Err(_) => 0,
    }
}

/// Writes a normal tag without a key of the extension u to `buffer`, and returns its length, as
/// `langtag_with_keyword` does: without ca, th-u-ca-gregory-nu-thai becomes th-u-nu-thai. Each
/// keyword of the key is removed from the first u, and so is this u if nothing else is in it. All
/// other bytes stay. A size of tag_len is always enough.
///
/// Returns 0 and writes nothing if the tag is not `LANGTAG_NORMAL`, or if the key does not consist
/// of a letter or digit and then a letter.
pub fn langtag_without_keyword(tag: &[u8], key: &[u8], buffer: &mut [u8]) -> usize {
    let Ok(key) = core::str::from_utf8(key) else {
        return 0;
    };
    let Some(tag) = tag_of(tag) else {
        return 0;
    };
    match write_without_keyword(tag, key, buffer) {
        Ok(len) => len,
        Err(_) => 0,
    }
}
