//! Calls of ranges and headers.
use langtag::matching::*;
use langtag::*;

use crate::reader::{list, word};

pub fn tags_of(text: &str) -> Vec<LangTag<'_>> {
    text.split_whitespace()
        .map(|word| LangTag::new(word).unwrap())
        .collect()
}

pub fn ranges_of(text: &str) -> Vec<LanguageRange<'_>> {
    text.split_whitespace()
        .map(|word| LanguageRange::new(word).unwrap())
        .collect()
}

/// Returns a default that is none of the tags.
fn default() -> LangTag<'static> {
    GrandfatheredLangTag::IDefault.into()
}

fn shown(tag: LangTag<'_>) -> String {
    word(Some(tag).filter(|tag| *tag != default()))
}

pub fn range(text: Option<&str>) -> String {
    let kind = match text.map(LanguageRange::new) {
        Some(Ok(range)) if range.is_basic() => "basic",
        Some(Ok(_)) => "extended",
        _ => "none",
    };
    kind.into()
}

pub fn matches(range: Option<&str>, tag: Option<LangTag<'_>>) -> String {
    let (Some(Ok(range)), Some(tag)) = (range.map(LanguageRange::new), tag) else {
        return "neither".into();
    };
    let (basic, extended) = (range.matches_basic(tag), range.matches_extended(tag));
    let owned = range.to_owned();
    assert_eq!(owned.matches_basic(tag), basic);
    assert_eq!(owned.matches_extended(tag), extended);
    let matches = match (basic, extended) {
        (true, true) => "both",
        (true, false) => "basic",
        (false, true) => "extended",
        (false, false) => "neither",
    };
    matches.into()
}

/// Returns the tag for a header, with strict and with lenient reading of the header.
pub fn header(header: &str, tags: &str) -> String {
    let (tags, none) = (tags_of(tags), default());
    let accepted = AcceptLanguage::lenient(header);
    let lenient = *accepted.look_up(&tags, &none);
    let ranges: Vec<_> = accepted.ranges().iter().map(|it| it.range).collect();
    assert_eq!(looked_up(&ranges, &tags), lenient);
    let lenient = shown(lenient);
    match tag_for_header(header, &tags, &none) {
        Ok(tag) => format!("{} | {lenient}", shown(*tag)),
        Err(AcceptLanguageError::BadElement {
            header: kept,
            index,
            offset,
            part,
        }) => {
            assert_eq!(kept, header);
            let part = part.to_string().replace("language ", "");
            format!("bad {index} {offset} {part} | {lenient}")
        }
        Err(error) => panic!("{error}"),
    }
}

/// Returns the ranges of a header with their weights, or the error message before the ranges of the lenient reading.
pub fn elements(header: &str) -> String {
    let error = match AcceptLanguage::new(header) {
        Ok(accepted) => return weighted(accepted.ranges()),
        Err(error) => error,
    };
    let words = error.to_string();
    let AcceptLanguageError::BadElement {
        index,
        offset,
        part,
        ..
    } = error
    else {
        panic!("{error}");
    };
    let element = header[offset..].split(',').next().unwrap().trim();
    let number = index + 1;
    let place = format!("element {number} at offset {offset} has a bad {part}: `");
    assert!(words.starts_with(&place), "{words}");
    let shown = element.escape_debug().to_string();
    let is_cut = element.len() > 80 || !element.is_ascii();
    assert!(is_cut || words.contains(&shown), "{words}");
    let ranges = weighted(AcceptLanguage::lenient(header).ranges());
    format!("element {index} has a bad {part} | {ranges}")
}

fn weighted(ranges: &[WeightedRange<'_>]) -> String {
    let told = |it: &WeightedRange<'_>| format!("{} {}", it.range, it.weight);
    list(ranges.iter().map(told))
}

/// Returns the tag that lookup finds. It must be the one that the proved function finds, in each kind of list.
fn looked_up<'a>(ranges: &[LanguageRange<'_>], tags: &[LangTag<'a>]) -> LangTag<'a> {
    let found = *look_up(ranges, tags, &default());
    let proved = langtag::erased::matching::look_up(ranges, tags, default());
    assert_eq!(found.as_str(), proved.as_str());
    let owned: Vec<LangTagBuf> = tags.iter().map(|tag| tag.to_owned()).collect();
    assert_eq!(*look_up(ranges, &owned, &default().to_owned()), found);
    let texts: Vec<&str> = tags.iter().map(|tag| tag.as_str()).collect();
    let words: Vec<&str> = ranges.iter().map(|range| range.as_str()).collect();
    let text = *look_up(&words, &texts, &default().as_str());
    assert_eq!(text, found.as_str());
    found
}

pub fn ranges(ranges: &str, tags: &str) -> String {
    shown(looked_up(&ranges_of(ranges), &tags_of(tags)))
}

pub fn fallbacks(range: &str) -> String {
    let Ok(range) = LanguageRange::new(range) else {
        return "refused".into();
    };
    for fallback in range.fallbacks() {
        let read = LanguageRange::new(fallback.as_str()).expect("a fallback is a range");
        assert_eq!(read.is_basic(), fallback.is_basic(), "{fallback}");
    }
    list(range.fallbacks())
}

pub fn filter(rule: &str, ranges: &str, tags: &str) -> String {
    let (ranges, tags) = (ranges_of(ranges), tags_of(tags));
    let proved = match rule {
        "basic" => erased::matching::filter_basic(&ranges, &tags),
        _ => erased::matching::filter_extended(&ranges, &tags),
    };
    let found: Vec<_> = match rule {
        "basic" => filter_basic(&ranges, &tags).collect(),
        _ => filter_extended(&ranges, &tags).collect(),
    };
    assert!(found
        .iter()
        .copied()
        .eq(&proved.clone().collect::<Vec<_>>()));
    list(proved)
}
