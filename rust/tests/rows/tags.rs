//! Calls of tags as a whole.
use std::cmp::Ordering;
use std::hash::{Hash, Hasher};

use langtag::scan::*;
use langtag::*;

use crate::reader::{escaped, escaped_text, list};

/// The 64-bit FNV-1a hash of all bytes that are written.
struct Fnv(u64);

impl Hasher for Fnv {
    fn write(&mut self, bytes: &[u8]) {
        for byte in bytes {
            self.0 = (self.0 ^ u64::from(*byte)).wrapping_mul(0x0000_0100_0000_01b3);
        }
    }

    fn finish(&self) -> u64 {
        self.0
    }
}

fn hash(value: &(impl Hash + ?Sized)) -> u64 {
    let mut hasher = Fnv(0xcbf2_9ce4_8422_2325);
    value.hash(&mut hasher);
    hasher.finish()
}

pub fn kind_of(bytes: &[u8]) -> &'static str {
    match LangTag::from_bytes(bytes).map(|tag| tag.kind()) {
        Ok(Kind::Normal) => "normal",
        Ok(Kind::PrivateUse) => "private",
        Ok(Kind::Grandfathered) => "irregular",
        Err(_) => "none",
    }
}

/// Returns the kind of a tag and, on further lines, its parts. It also compares calls that must return the same values.
pub fn tag(bytes: &[u8]) -> String {
    let constant = constant(bytes);
    let Ok(tag) = LangTag::from_bytes(bytes) else {
        assert_eq!(constant, None);
        return kind_of(bytes).into();
    };
    check_twice(tag);
    let (found, constant) = (parts_of(tag), constant.unwrap());
    assert_eq!(
        (parts_of(constant), constant.kind()),
        (found.clone(), tag.kind())
    );
    found
}

/// Returns the tag as rustc reads it for a constant, or `None` if rustc refuses it.
fn constant(bytes: &[u8]) -> Option<LangTag<'static>> {
    let text: &str = String::from_utf8(bytes.into()).ok()?.leak();
    std::panic::catch_unwind(|| LangTag::from_static(text)).ok()
}

fn parts_of(tag: LangTag<'_>) -> String {
    let mut lines = vec![String::from(kind_of(tag.as_bytes()))];
    let mut line = |name: &str, words: &str| lines.push(format!("  {name} {words}"));
    if let Some(language) = tag.language() {
        let primary = language.primary();
        let (first, rest) = language.split_once('-').unwrap_or((&language, ""));
        assert_eq!(primary.as_str(), first);
        assert_eq!(language.extension().map_or("", |it| it.as_str()), rest);
        let subtags = language.extension_subtags();
        assert!(subtags.eq(rest.split_terminator('-')));
        line("language", &language.replace('-', " "));
    }
    if let Some(script) = tag.script() {
        line("script", &script);
    }
    if let Some(region) = tag.region() {
        line("region", &region);
    }
    if !tag.variants().is_empty() {
        line("variants", &list(tag.variants()));
    }
    if !tag.extensions().is_empty() {
        line("extensions", &list(tag.extensions()));
    }
    // The C library also lists the `x` and the subtags of a private-use tag.
    if let Some(part) = tag.private_use().or(tag.as_private_use()) {
        assert!(part.iter().eq(part[2..].split('-')));
        line("private_use", &part.replace('-', " "));
    }
    if let Some(normal) = tag.as_normal() {
        repeats(&normal, &mut line);
    }
    line("recommended", &tag.in_recommended_case().to_string());
    line("folded", &tag.to_ascii_lowercase());
    line("hash", &format!("{:016x}", hash(&tag)));
    lines.join("\n")
}

/// Adds lines for the first repeated variant and singleton, and for their offsets.
fn repeats(tag: &NormalLangTag<'_>, line: &mut impl FnMut(&str, &str)) {
    let offset_of =
        |part: &str| (part.as_ptr() as usize - tag.as_str().as_ptr() as usize).to_string();
    if let Some(variant) = tag.repeated_variant() {
        let index = tag.repeated_variant_index().unwrap();
        assert_eq!(tag.variants().iter().nth(index), Some(variant));
        line("repeated_variant", &variant);
        line("at_variant", &offset_of(variant.as_str()));
    }
    if let Some(singleton) = tag.repeated_singleton() {
        let index = tag.repeated_singleton_index().unwrap();
        let extension = tag.extensions().iter().nth(index).unwrap();
        assert_eq!(extension.singleton(), singleton);
        line("repeated_singleton", &singleton.to_string());
        line("at_singleton", &offset_of(extension.as_str()));
    }
}

/// Checks that calls return the same for two values.
macro_rules! same {
    ($one:ident $other:ident: $($call:ident)+) => {$(
        assert_eq!($one.$call(), $other.$call(), "{}", stringify!($call));
    )+};
}

/// Checks that an owned tag has the parts of another tag.
pub fn check_parts(owned: &LangTagBuf, tag: LangTag<'_>) {
    same! {
        owned tag: kind is_normal is_private_use is_grandfathered as_grandfathered as_typed as_bytes
        language script region variants extensions private_use
    }
    assert!(owned.subtags().eq(tag.subtags()));
    assert!(owned.private_use() == tag.private_use());
    if let Some(normal) = tag.as_normal() {
        let owned = owned.clone().into_normal().unwrap();
        same! {
            owned normal: ends as_lang_tag language script region variants extensions private_use
            repeated_variant repeated_singleton
        }
    }
}

/// Checks that different calls return the same values for a tag.
pub fn check_twice(tag: LangTag<'_>) {
    let (text, owned) = (tag.as_str(), tag.to_owned());
    let subtags: Vec<&str> = text.split('-').collect();
    assert!(tag.subtags().eq(subtags.iter().copied()));
    assert!(owned.subtags().rev().eq(subtags.iter().rev().copied()));
    check_parts(&owned, tag);
    let kind = tag.kind();
    let is = [Kind::Normal, Kind::PrivateUse, Kind::Grandfathered].map(|it| it == kind);
    let said = [kind.is_normal(), kind.is_private_use()];
    assert_eq!([said[0], said[1], kind.is_grandfathered()], is);
    assert_eq!([tag.is_normal(), tag.is_private_use()], said);
    let normal = tag.as_normal().map(|tag| tag.as_lang_tag());
    assert_eq!(normal, tag.is_normal().then_some(tag));
    assert_eq!(hash(&tag), hash(&owned));
    assert_eq!(hash(&tag), hash(text.caseless()));
    assert!(Refusal::of(text.as_bytes()).is_none());
}

pub fn grandfathered(text: &[u8]) -> String {
    let found = LangTag::from_bytes(text)
        .ok()
        .and_then(|tag| tag.as_grandfathered());
    let index = GRANDFATHERED.iter().position(|it| found == Some(*it));
    assert_eq!(found, GrandfatheredLangTag::new(text).ok());
    format!("{} {}", index.unwrap_or(26), kind_of(text))
}

/// Returns how many bytes are read before it is known whether the text is a tag.
fn reads(bytes: &[u8]) -> usize {
    let mut source = Metered::of_bytes(bytes);
    recognise(&mut source);
    assert_eq!(source.reads(), source.reach() as u128);
    source.reach()
}

pub fn viable(bytes: &[u8]) -> String {
    format!("{} {}", viable_len(bytes), reads(bytes))
}

/// Checks how much of a tag is read: each of its prefixes exactly once. If `_` follows, so is the `_`. If `--` follows, the second
/// hyphen is read, except after an irregular tag: no subtag can follow that, so the first hyphen decides.
fn sweep(tag: &[u8], is_irregular: bool) {
    for len in 0..=tag.len() {
        assert_eq!(reads(&tag[..len]), len, "of the first {len} bytes");
    }
    for (end, more) in [("_", 1), ("--", if is_irregular { 1 } else { 2 })] {
        let text = [tag, end.as_bytes()].concat();
        assert!(LangTag::from_bytes(&text).is_err());
        assert_eq!(reads(&text), tag.len() + more, "with {end} behind it");
    }
}

/// Returns how many bytes are read, how many prefixes are tags, the kind of the text, and the ends of its parts. It also copies these
/// prefixes.
pub fn scan(bytes: &[u8]) -> String {
    let fronts = (0..=bytes.len()).filter_map(|end| LangTag::from_bytes(&bytes[..end]).ok());
    let fronts = fronts.inspect(|tag| check_twice(*tag));
    let head = format!("{} {} {}", reads(bytes), fronts.count(), kind_of(bytes));
    let found = recognise(&mut Metered::of_bytes(bytes));
    if let Some(found) = found {
        sweep(bytes, found.irregular().is_some());
    }
    let normal = recognise_normal(&mut Metered::of_bytes(bytes));
    let ends = found.and_then(|found| found.ends());
    assert_eq!(normal.and_then(|found| found.ends()), ends);
    if let Some(number) = found.and_then(|found| found.irregular()) {
        return format!("{head} {number}");
    }
    let Some(ends) = ends else {
        return head;
    };
    let mut answer = format!("{head} {} {} {}", ends.language, ends.script, ends.region);
    answer += &format!(" {} {} {}", ends.variants, ends.extensions, ends.whole);
    answer
}

/// Returns bytes in their recommended case. If the bytes are a tag, all calls must return the same form.
pub fn recommended(bytes: &[u8]) -> String {
    let mut form = bytes.to_vec();
    make_recommended_case(&mut form);
    assert_eq!(is_in_recommended_case(bytes), form == bytes);
    assert!(is_in_recommended_case(&form));
    if let Ok(tag) = LangTag::from_bytes(bytes) {
        let mut owned = tag.to_owned();
        owned.make_recommended_case();
        assert_eq!((owned.as_bytes(), &owned), (&form[..], &tag.to_owned()));
        assert_eq!(tag.try_to_recommended_case().unwrap().as_bytes(), form);
        assert_eq!(tag.in_recommended_case().to_string().into_bytes(), form);
        assert_eq!(tag.is_in_recommended_case(), form == bytes);
    }
    escaped(&form)
}

/// Returns where a text is wrong: the kind of the error, the subtag, and the offset of the error.
pub fn refused(bytes: &[u8]) -> String {
    let Some(refusal) = Refusal::of(bytes) else {
        let len = bytes.len();
        return format!("none {len} 0 {len}");
    };
    let kind = match refusal.kind {
        RefusalKind::Subtag => "subtag",
        RefusalKind::Byte => "byte",
        _ => "end",
    };
    let Refusal {
        start, end, offset, ..
    } = refusal;
    format!("{kind} {start} {} {offset}", end - start)
}

/// Returns the message for bytes that are not a tag. The message for the same string is the same.
pub fn message(bytes: &[u8]) -> String {
    let error = LangTag::from_bytes(bytes).unwrap_err().to_string();
    if let Ok(text) = std::str::from_utf8(bytes) {
        let other = LangTag::new(text).unwrap_err();
        assert_eq!(error, other.to_string());
        assert!(error.ends_with(&format!("`: {}", other.reason())));
    }
    escaped_text(&error)
}

pub fn range_message(text: &str) -> String {
    let error = langtag::matching::LanguageRange::new(text).unwrap_err();
    escaped_text(&error.to_string())
}

pub fn order(a: &[u8], b: &[u8]) -> String {
    let order = case_insensitive_cmp(a, b);
    assert_eq!(order.is_eq(), case_insensitive_eq(a, b));
    if let (Ok(a), Ok(b)) = (std::str::from_utf8(a), std::str::from_utf8(b)) {
        assert_eq!(a.caseless().cmp(b.caseless()), order);
        assert_eq!(a.caseless() == b.caseless(), order.is_eq());
    }
    if let (Ok(tag), Ok(other)) = (LangTag::from_bytes(a), LangTag::from_bytes(b)) {
        assert_eq!(
            (tag == other, tag == other.as_str()),
            (order.is_eq(), order.is_eq())
        );
        assert_eq!(tag.cmp(&other), order);
        assert_eq!(tag.to_owned().cmp(&other.to_owned()), order);
        assert_eq!(tag.to_owned().partial_cmp(&other), Some(order));
    }
    let order = match order {
        Ordering::Less => "before",
        Ordering::Equal => "equal",
        Ordering::Greater => "after",
    };
    order.into()
}

/// Returns the base of a tag, which must be the base of its owned forms, of its normal form, and its own base.
pub fn base(tag: LangTag<'_>) -> String {
    let base = tag.base();
    assert_eq!(base.base().as_str(), base.as_str(), "{tag}");
    assert_eq!(base.kind(), tag.kind(), "{tag}");
    assert_eq!(tag.to_owned().base().as_str(), base.as_str(), "{tag}");
    if let Some(normal) = tag.as_normal() {
        assert_eq!(normal.base().as_str(), base.as_str(), "{tag}");
        assert_eq!(normal.to_owned().base().as_str(), base.as_str(), "{tag}");
        assert_eq!(normal.base().private_use(), None, "{tag}");
        assert_eq!(normal.base().variants(), normal.variants(), "{tag}");
    }
    base.to_string()
}
