//! Calls of likely subtags, distances and choices.
use std::collections::HashSet;

use langtag::choice::*;
use langtag::likely::*;
use langtag::matching::{wanted_ranges, AcceptLanguage, LanguageRange};
use langtag::*;

use crate::matching::{ranges_of, tags_of};
use crate::reader::{check_buffer, check_written, length, list, word};

pub fn maximal(tag: LangTag<'_>) -> String {
    check_buffer(tag.maximized(), |buffer| {
        length(write_maximized(tag, buffer))
    })
}

pub fn minimal(tag: LangTag<'_>) -> String {
    check_buffer(tag.minimized(), |buffer| {
        length(write_minimized(tag, buffer))
    })
}

pub fn posix(name: &str) -> String {
    match from_posix(name) {
        Ok(tag) => check_buffer(tag, |buffer| {
            length(write_from_posix(name, buffer).map(Option::unwrap))
        }),
        Err(PosixError::NoTag(text)) => {
            assert_eq!((&*text, write_from_posix(name, &mut [])), (name, Ok(None)));
            "-".into()
        }
        Err(error) => panic!("{error}"),
    }
}

/// Returns the name for a tag. The tag that the name gives must be the tag again, except for a likely script.
pub fn posix_name(tag: LangTag<'_>) -> String {
    let Some(name) = to_posix(tag) else {
        let mut buffer = [b'~'; 4];
        assert_eq!(write_to_posix(tag, &mut buffer), Ok(None));
        assert_eq!(buffer, [b'~'; 4]);
        return "-".into();
    };
    let back = from_posix(&name).unwrap();
    assert!(back == tag || back.maximized() == tag.maximized(), "{name}");
    check_buffer(name, |buffer| {
        length(write_to_posix(tag, buffer).map(Option::unwrap))
    })
}

/// Returns a tag and its parents. The second one is the parent.
pub fn chain(tag: LangTag<'_>) -> String {
    let chain: Vec<LangTagBuf> = tag.parents().collect();
    assert_eq!(tag.parent().as_ref(), chain.get(1));
    for (index, parent) in chain.iter().enumerate() {
        check_buffer(parent, |buffer| {
            length(write_parent(tag, index, buffer).map(Option::unwrap))
        });
    }
    let distinct = chain.iter().collect::<HashSet<_>>();
    assert_eq!(distinct.len(), chain.len(), "a tag stands twice");
    list(chain)
}

/// Returns the best tag, which must be the same one in each kind of list that a program may have.
fn in_each_list(tags: &str, best: impl Fn(&dyn TagList) -> Option<usize>) -> String {
    let tags = tags_of(tags);
    let owned: Vec<LangTagBuf> = tags.iter().map(|tag| tag.to_owned()).collect();
    let texts: Vec<&str> = tags.iter().map(|tag| tag.as_str()).collect();
    let strings: Vec<String> = tags.iter().map(|tag| tag.to_string()).collect();
    let (lent_site, owned_site, site) = (&tags[..], &owned[..], Site::new(&owned[..]));
    let found = best(&tags);
    let lists: [&dyn TagList; 6] = [&lent_site, &owned, &owned_site, &texts, &strings, &site];
    assert_eq!(lists.map(best), [found; 6]);
    assert!(langtag::erased::choice::OwnedSite::new(&tags).is_ok());
    shown(found, &tags)
}

fn shown(best: Option<usize>, tags: &[LangTag<'_>]) -> String {
    word(best.map(|index| tags[index]))
}

/// A list may have other texts than tags, which are never chosen.
fn are_tags(texts: &[&str]) -> bool {
    texts.iter().all(|text| LangTag::new(text).is_ok())
}

pub fn best(header: &[u8], tags: &str) -> String {
    let texts: Vec<&str> = tags.split_whitespace().collect();
    if !are_tags(&texts) {
        return word(best_for_header(header, &texts).map(|index| texts[index]));
    }
    in_each_list(tags, |tags| best_for_header(header, tags))
}

pub fn best_match(header: &[u8], tags: &str) -> String {
    let tags = tags_of(tags);
    let found = match_for_header(header, &tags);
    assert_eq!(found, Site::new(&tags[..]).match_for_header(header));
    assert!(found.map(|found| found.index) == best_for_header(header, &tags));
    word(found.map(|found| {
        let range = std::str::from_utf8(found.range).unwrap();
        assert!(wanted_ranges(header).nth(found.place).unwrap().bytes == found.range);
        format!("{} {} {range}", found.index, found.distance)
    }))
}

/// Tags of sites, to which laws of the locale to format with apply that are not proved. They have likely subtags.
const OF_SITES: [&str; 12] = [
    "en",
    "en-US-u-rg-gbzzzz",
    "zh",
    "zh-Hant-HK",
    "sr-Latn-ME",
    "es-419",
    "uz-u-ca-buddhist-nu-thai",
    "pa-PK-x-mine",
    "ca-valencia",
    "fr-t-en-t0-und-u-hc-h12",
    "ar-EG",
    "pt-PT",
];

/// Checks that the locale to format with is canonical if the tag is, is the result for itself, and is as near as the tag.
fn check_laws(range: &[u8], tag: LangTag<'_>) {
    let locale = resolved_locale(range, tag).unwrap();
    let form = locale.locale_form().unwrap();
    assert_eq!(form.as_str(), locale.as_str());
    let again = resolved_locale(&locale, tag).unwrap();
    assert_eq!(again.as_str(), locale.as_str());
    assert!(locale.distance(tag) <= 5, "{locale} {tag}");
    let range = std::str::from_utf8(range)
        .ok()
        .and_then(|range| LangTag::new(range).ok());
    if let Some(range) = range.and_then(|range| range.locale_form()) {
        assert!(
            range.distance(&locale) <= range.distance(tag),
            "{range} {locale} {tag}"
        );
    }
}

/// Returns the locale to format with, which must be the same for each kind of tag, and the result for itself.
pub fn resolved(range: &[u8], tag: LangTag<'_>) -> String {
    let locale = resolved_locale(range, tag).unwrap();
    for tag in OF_SITES {
        check_laws(range, LangTag::new(tag).unwrap());
    }
    assert_eq!(
        resolved_locale(range, tag.as_str()).unwrap().as_str(),
        locale.as_str()
    );
    assert_eq!(
        resolved_locale(range, &locale).unwrap().as_str(),
        locale.as_str()
    );
    check_written(&locale, |buffer| {
        length(write_resolved_locale(range, tag, buffer).map(Option::unwrap))
    });
    locale.into_string()
}

pub fn best_accepted(header: &str, tags: &str) -> String {
    let tags = tags_of(tags);
    let accepted = AcceptLanguage::lenient(header);
    let best = best_for_ranges(&accepted, &tags);
    assert_eq!(
        erased::choice::best_for_accept_language(&accepted, &tags),
        best
    );
    let ranges: Vec<_> = accepted.ranges().iter().map(|it| it.range).collect();
    assert_eq!(best, best_for_ranges(&ranges, &tags));
    let site = Site::new(&tags[..]);
    let found = site.best_for_ranges(&accepted);
    assert_eq!(found, best.map(|index| &tags[index]));
    let suitable = suitable_for_ranges(accepted.ranges(), &tags);
    assert_eq!(suitable.first().copied(), best);
    shown(best, &tags)
}

pub fn best_ranges(ranges: &str, tags: &str) -> String {
    let texts: Vec<&str> = ranges.split_whitespace().collect();
    let are_ranges = texts.iter().all(|text| LanguageRange::new(text).is_ok());
    in_each_list(tags, |tags| {
        let found = best_for_ranges(&texts, tags);
        if are_ranges {
            assert_eq!(found, best_for_ranges(&ranges_of(ranges), tags));
        }
        found
    })
}

/// Returns the tags at the indices, which a site must return, too.
fn all_shown(found: &[usize], tags: &[LangTag<'_>], of_site: Vec<&LangTag<'_>>) -> String {
    let found = list(found.iter().map(|index| tags[*index]));
    assert_eq!(list(of_site), found);
    found
}

/// Returns the suitable tags. An array that is too short must get the first of them.
pub fn suitable(header: &[u8], tags: &str) -> String {
    let texts: Vec<&str> = tags.split_whitespace().collect();
    if !are_tags(&texts) {
        let found = suitable_for_header(header, &texts).into_iter();
        return list(found.map(|index| texts[index]));
    }
    let tags = tags_of(tags);
    let found = suitable_for_header(header, &tags);
    for room in 0..=tags.len() {
        let mut some = vec![usize::MAX; room];
        let count = erased::choice::write_suitable(header, &&tags[..], &mut some);
        assert_eq!(some[..count], found[..room.min(found.len())]);
        if let Ok(header) = std::str::from_utf8(header) {
            let (mut again, all) = (vec![usize::MAX; room], found.len() <= room);
            assert_eq!(write_suitable(header, &tags, &mut again).is_ok(), all);
            assert_eq!(again, some);
        }
        assert!(some[count..].iter().all(|index| *index == usize::MAX));
    }
    let site = Site::new(&tags[..]);
    all_shown(&found, &tags, site.suitable_for_header(header))
}

pub fn suitable_ranges(ranges: &str, tags: &str) -> String {
    let (texts, tags): (Vec<&str>, _) = (ranges.split_whitespace().collect(), tags_of(tags));
    let (found, site) = (suitable_for_ranges(&texts, &tags), Site::new(&tags[..]));
    all_shown(&found, &tags, site.suitable_for_ranges(&texts))
}
