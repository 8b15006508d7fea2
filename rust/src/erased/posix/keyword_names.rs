// Generated from crates/langtag_posix/src/keyword_names.rt. Do not edit.

//! The keywords of a locale name, as ICU and Apple's systems write them after `@`:
//! `calendar=buddhist;currency=THB`. Only keywords of the extension `u` are read. Time zones by
//! their long names, attributes, other extensions and private use are left to `unknown_modifier`,
//! because few names have them. ICU reads `@calendar=roc` as `und-u-ca-roc`, and here it is
//! refused.

use crate::erased::keyword::is_unicode_key;
use crate::erased::range::split_at_byte;
use crate::erased::scan::is_extension_subtag;
use crate::erased::text::{alias_for, type_alias_for, Output};

/// ICU's names of keys, and the keys, from CLDR 48.2 (common/bcp47, the attribute `alias`).
#[rustfmt::skip]
static KEY_NAMES: [(&str, &str); 17] = [
    ("calendar", "ca"), ("collation", "co"), ("currency", "cu"), ("hours", "hc"), ("colAlternate", "ka"),
    ("colBackwards", "kb"), ("colCaseLevel", "kc"), ("colCaseFirst", "kf"), ("colHiraganaQuaternary", "kh"),
    ("colNormalization", "kk"), ("colNumeric", "kn"), ("colReorder", "kr"), ("colStrength", "ks"), ("measure", "ms"),
    ("numbers", "nu"), ("timezone", "tz"), ("variableTop", "vt"),
];

/// ICU's names of types that cannot stand in a tag: a key, the name, and the type. The canonical
/// form (UTS #35) replaces the names that can.
#[rustfmt::skip]
static TYPE_NAMES: [(&str, &str, &str); 17] = [
    ("ca", "gregorian", "gregory"), ("co", "dictionary", "dict"), ("co", "gb2312han", "gb2312"),
    ("co", "phonebook", "phonebk"), ("co", "traditional", "trad"), ("ka", "non-ignorable", "noignore"),
    ("kb", "no", "false"), ("kc", "no", "false"), ("kf", "no", "false"), ("kh", "no", "false"),
    ("kk", "no", "false"), ("kn", "no", "false"), ("ks", "secondary", "level2"), ("ks", "quaternary", "level4"),
    ("ks", "quarternary", "level4"), ("ks", "identical", "identic"), ("nu", "traditional", "traditio"),
];

/// Returns whether a modifier consists of keywords that can be read. An empty modifier has none.
#[inline]
pub(crate) fn are_keywords(modifier: &[u8]) -> bool {
    !modifier.is_empty() && is_each_keyword(modifier)
}

#[inline]
fn is_each_keyword(modifier: &[u8]) -> bool {
    modifier
        .split(|byte| *byte == b';')
        .all(|keyword| is_keyword(keyword))
}

#[inline]
fn is_keyword(keyword: &[u8]) -> bool {
    let (key, value) = key_and_type(keyword);
    is_unicode_key(key) && are_types(value)
}

/// Returns whether each subtag of a value has three to eight letters or digits.
#[inline]
fn are_types(value: &[u8]) -> bool {
    value
        .split(|byte| *byte == b'-')
        .all(|subtag| is_type(subtag))
}

#[inline]
fn is_type(subtag: &[u8]) -> bool {
    subtag.len() >= 3 && is_extension_subtag(subtag)
}

/// Appends the extension `u` with the keywords of a modifier after a hyphen, if they can be read.
#[inline]
pub(crate) fn push_keywords(out: &mut Output<'_>, modifier: &[u8]) {
    if are_keywords(modifier) {
        out.push(b"-u");
        push_each(out, modifier);
    }
}

/// Appends the keywords of a modifier as subtags, each after a hyphen.
#[inline]
fn push_each(out: &mut Output<'_>, modifier: &[u8]) {
    for keyword in modifier.split(|byte| *byte == b';') {
        push_keyword(out, keyword);
    }
}

fn push_keyword(out: &mut Output<'_>, keyword: &[u8]) {
    let (key, value) = key_and_type(keyword);
    out.push(b"-");
    out.push(key);
    out.push(b"-");
    out.push(value);
}

/// Returns the key and the type that a keyword names.
#[inline]
fn key_and_type(keyword: &[u8]) -> (&[u8], &[u8]) {
    let (key, value) = split_at_byte(keyword, b'=');
    let key = key_named(key);
    (key, type_named(key, value))
}

#[inline]
fn key_named(name: &[u8]) -> &[u8] {
    alias_for(&KEY_NAMES, name).map_or(name, |key| key.as_bytes())
}

#[inline]
fn type_named<'a>(key: &[u8], name: &'a [u8]) -> &'a [u8] {
    type_alias_for(&TYPE_NAMES, key, name).map_or(name, |value| value.as_bytes())
}
