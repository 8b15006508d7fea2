// Generated from crates/langtag_posix/src/platform_names.rt. Do not edit.

//! The language and the territory of a locale name, as Java, Windows, Android and .NET write them.
//! The same call reads all of them, because a program seldom knows where a name comes from.
//! Qualifiers of Android's folders behind a region are refused, and not dropped: `ldrtl` has the
//! form of a variant, and `land` that of a script. Languages of more than three letters are
//! refused, because the registry has none, and names such as `german` have their form.

use crate::erased::posix::modifiers::is_script_code;
use crate::erased::range::split_at_byte;
use crate::erased::scan::{case_insensitive_eq, is_primary, is_region, is_script, is_variant};
use crate::erased::text::{alias_for, write_pieces};

/// The greatest length of a language and a territory, in bytes.
pub(crate) const MOST: usize = 255;

/// The greatest length of the string that they are read as, in bytes: `und` may come before them.
pub(crate) const MOST_READ: usize = 260;

/// The names with a last field that is no subtag, and their tags: those of Java, and those that
/// Windows gives to other orders of sorting.
#[rustfmt::skip]
static LAST_FIELDS: [(&str, &str); 13] = [
    ("no-NO-NY", "nn-NO"), ("ja-JP-JP", "ja-JP-u-ca-japanese"), ("th-TH-TH", "th-TH-u-nu-thai"),
    ("de-DE-phoneb", "de-DE-u-co-phonebk"), ("es-ES-tradnl", "es-ES-u-co-trad"), ("ja-JP-radstr", "ja-JP-u-co-unihan"),
    ("zh-CN-stroke", "zh-CN-u-co-stroke"), ("zh-MO-stroke", "zh-MO-u-co-stroke"), ("zh-SG-stroke", "zh-SG-u-co-stroke"),
    ("zh-HK-radstr", "zh-HK-u-co-unihan"), ("zh-MO-radstr", "zh-MO-u-co-unihan"), ("zh-TW-radstr", "zh-TW-u-co-unihan"),
    ("zh-TW-pronun", "zh-TW-u-co-zhuyin"),
];

/// The least length of such a name, in bytes.
const SHORTEST_LAST: usize = 8;

/// Returns the string that a language and a territory are read as, written into `room` or `short`:
/// `zh-TW` for `zh_TW`, and for `zh-rTW` and `b+zh+TW`, and `und-TW` for `_TW`.
pub(crate) fn read_place<'a>(
    place: &[u8],
    room: &'a mut [u8; MOST],
    short: &'a mut [u8; MOST_READ],
) -> &'a [u8] {
    let (front, tag) = split_at_byte(place, b'+');
    let (_, qualifiers) = split_at_byte(place, b'-');
    if case_insensitive_eq(b"b", front) && qualifiers.is_empty() {
        return hyphenated(tag, b'+', room);
    }
    platform_read(hyphenated(place, b'_', room), short)
}

/// Writes a string into `room` with each byte `mark` as a hyphen, and returns it.
fn hyphenated<'a>(text: &[u8], mark: u8, room: &'a mut [u8; MOST]) -> &'a [u8] {
    let bytes = &mut room[..text.len()];
    bytes.copy_from_slice(text);
    hyphenate(bytes, mark);
    bytes
}

/// Writes a hyphen instead of each byte `mark`.
#[inline]
fn hyphenate(bytes: &mut [u8], mark: u8) {
    for byte in bytes.iter_mut() {
        if *byte == mark {
            *byte = b'-';
        }
    }
}

/// Returns the tag for a string in a form of Java, Windows, Android or .NET or with an empty field,
/// or else the string as it stands.
fn platform_read<'a>(text: &'a [u8], short: &'a mut [u8; MOST_READ]) -> &'a [u8] {
    if let Some(tag) = last_field(text) {
        return tag;
    }
    let (language, behind) = split_at_byte(text, b'-');
    if let Some((first, second)) = platform_text(language, behind) {
        return written(language, first, second, short);
    }
    filled_behind(language, behind).map_or(text, |(first, second)| {
        written(language_or_und(language), first, second, short)
    })
}

/// Writes a language and one or two subtags into `room`, and returns them as one string.
fn written<'t, 'r>(
    language: &'t [u8],
    first: &'t [u8],
    second: &'t [u8],
    room: &'r mut [u8; MOST_READ],
) -> &'r [u8] {
    let pieces: [&[u8]; 5] = [language, b"-", first, b"-", second];
    let used = if second.is_empty() { 3 } else { 5 };
    let len = write_pieces(&pieces[..used], room);
    &room[..len]
}

/// Returns whether a string is a language of two or three letters.
#[inline]
fn is_short_language(language: &[u8]) -> bool {
    is_primary(language) && language.len() <= 3
}

/// Returns what [`platform_behind`] does, after a language of two or three letters.
#[inline]
fn platform_text<'a>(language: &[u8], behind: &'a [u8]) -> Option<(&'a [u8], &'a [u8])> {
    if is_short_language(language) {
        platform_behind(language, behind)
    } else {
        None
    }
}

/// Returns the one or two subtags that are read for the string after a language, if the string has
/// a form of Android or .NET. If there is one, the second is empty.
fn platform_behind<'a>(language: &[u8], behind: &'a [u8]) -> Option<(&'a [u8], &'a [u8])> {
    if let Some(script) = chinese_script(language, behind) {
        return Some((script, b""));
    }
    if let Some(region) = android_region(language, behind) {
        return Some((region, b""));
    }
    let (region, script) = split_at_byte(behind, b'-');
    if is_region(region) && is_script_code(script) {
        return Some((script, region_now(language, region)));
    }
    None
}

/// Returns the script that .NET's names for Chinese mean: `Hans` for `zh-CHS`.
fn chinese_script(language: &[u8], behind: &[u8]) -> Option<&'static [u8]> {
    if !case_insensitive_eq(b"zh", language) {
        return None;
    }
    if case_insensitive_eq(b"CHS", behind) {
        return Some(b"Hans");
    }
    if case_insensitive_eq(b"CHT", behind) {
        return Some(b"Hant");
    }
    None
}

/// Returns the region that Android writes after `r`: `TW` for `zh-rTW`.
fn android_region<'a>(language: &[u8], behind: &'a [u8]) -> Option<&'a [u8]> {
    if case_insensitive_eq(b"sgn", language) {
        return None;
    }
    match behind {
        [b'r' | b'R', region @ ..] if is_region(region) => Some(region),
        _ => None,
    }
}

/// Returns the region of a name with a script. .NET writes `SP` for Serbia.
#[inline]
fn region_now<'a>(language: &[u8], region: &'a [u8]) -> &'a [u8] {
    if case_insensitive_eq(b"sr", language) && case_insensitive_eq(b"SP", region) {
        return b"RS";
    }
    region
}

/// Returns the tag for a name whose last field is no subtag: `nn-NO` for `no-NO-NY`.
fn last_field(text: &[u8]) -> Option<&'static [u8]> {
    if text.len() < SHORTEST_LAST {
        return None;
    }
    alias_for(&LAST_FIELDS, text).map(|tag| tag.as_bytes())
}

/// Returns the string behind a language in a name with an empty field, in one or two parts: `POSIX`
/// for `-POSIX`, and `Hant` and `PINYIN` for `Hant--PINYIN`. If the language is empty, any string
/// behind it is returned.
fn filled_behind<'a>(language: &[u8], behind: &'a [u8]) -> Option<(&'a [u8], &'a [u8])> {
    if let Some(found) = without_gap(behind) {
        return Some(found);
    }
    if language.is_empty() && !behind.is_empty() {
        Some((behind, b""))
    } else {
        None
    }
}

/// Returns the string behind a language without the mark of an empty region, in one or two parts.
fn without_gap(behind: &[u8]) -> Option<(&[u8], &[u8])> {
    if let Some(variants) = behind_gap(behind) {
        return Some((variants, b""));
    }
    let (script, others) = split_at_byte(behind, b'-');
    if !is_script(script) {
        return None;
    }
    let variants = behind_gap(others)?;
    Some((script, variants))
}

/// Returns the variants behind an empty field.
#[inline]
fn behind_gap(behind: &[u8]) -> Option<&[u8]> {
    match behind {
        [b'-', variants @ ..] if begins_variant(variants) => Some(variants),
        _ => None,
    }
}

#[inline]
fn begins_variant(text: &[u8]) -> bool {
    let (first, _) = split_at_byte(text, b'-');
    is_variant(first)
}

/// Returns a language, or `und` for an empty one.
#[inline]
fn language_or_und(language: &[u8]) -> &[u8] {
    if language.is_empty() {
        b"und"
    } else {
        language
    }
}

/// Returns whether a string has a language of at most three letters, or none, and no region with
/// Android's mark.
#[inline]
pub(crate) fn is_of_language(text: &[u8]) -> bool {
    let (language, _) = split_at_byte(text, b'-');
    language.len() <= 3 && !has_marked_region(text)
}

/// Returns whether a region keeps Android's mark, because other qualifiers of a folder come after
/// it.
fn has_marked_region(text: &[u8]) -> bool {
    let (language, behind) = split_at_byte(text, b'-');
    let (region, _) = split_at_byte(behind, b'-');
    is_short_language(language) && is_marked(language, region)
}

#[inline]
fn is_marked(language: &[u8], region: &[u8]) -> bool {
    android_region(language, region).is_some()
}
