//! Calls of the Rust crate whose instructions `run` counts: `rust KIND LINES SITE` makes each call of a kind once for each line of a file.
//! SITE is a file with the tags of a site. A function that takes a tag also parses it, as those of C do.

use std::hint::black_box;

use langtag::choice::{best_for_header, suitable_for_header, Site};
use langtag::matching::{AcceptLanguage, LanguageRange};
use langtag::LangTag;

type Call = for<'s, 't, 'l> fn(&'s Site<LangTag<'t>>, &'l str);

fn tag(text: &str) -> LangTag<'_> {
    LangTag::new(text).unwrap()
}

/// Parses a tag and returns its parts, which are a private use tag's own text if it has none.
fn parts(text: &str) -> usize {
    LangTag::new(text).map_or(0, |tag| {
        let parts = (tag.language(), tag.script(), tag.region(), tag.variants(), tag.extensions(), tag.private_use());
        black_box(parts).0.map_or(1, |language| language.as_str().len())
    })
}

/// Writes a function for each call, and the list of them with their kinds.
macro_rules! calls {
    ($($kind:ident: $name:ident($site:ident, $line:ident) => $call:expr;)+) => {
        $(
            #[inline(never)]
            #[unsafe(export_name = concat!("entry_", stringify!($name)))]
            fn $name($site: &Site<LangTag<'_>>, $line: &str) {
                let _ = black_box($call);
            }
        )+

        const CALLS: &[(&str, &str, Call)] = &[$((stringify!($kind), stringify!($name), $name)),+];
    };
}

calls! {
    parse: parse_and_read(_site, text) => parts(text);
    headers: best(site, header) => best_for_header(header, site.tags());
    headers: site(site, header) => site.best_for_header(header);
    headers: suitable(site, header) => suitable_for_header(header, site).len();
    headers: look_up(site, header) => AcceptLanguage::lenient(header).look_up(site.tags(), &site.tags()[0]);
    tags: parse(_site, text) => tag(text);
    tags: matches_basic(_site, text) => LanguageRange::new("zh-HK").unwrap().matches_basic(tag(text));
    tags: matches_extended(_site, text) => LanguageRange::new("*-HK").unwrap().matches_extended(tag(text));
    tags: validity(_site, text) => tag(text).validate();
    tags: canonical(_site, text) => tag(text).canonical();
    tags: maximized(_site, text) => tag(text).maximized();
    tags: minimized(_site, text) => tag(text).minimized();
    tags: parent(_site, text) => tag(text).parent();
    tags: describe(_site, text) => langtag::names::describe(tag(text)).len();
    tags: autonym(_site, text) => langtag::names::autonym(tag(text));
    keywords: extensions_form(_site, text) => tag(text).extensions_form();
    keywords: locale_form(_site, text) => tag(text).locale_form();
}

fn main() {
    let arguments: Vec<String> = std::env::args().skip(1).collect();
    let [kind, lines, site] = &arguments[..] else { panic!("usage: rust KIND LINES SITE") };
    let [lines, site] = [lines, site].map(|path| std::fs::read_to_string(path).unwrap());
    let site: Site<LangTag<'_>> = site.lines().map(tag).collect();
    for (_, _, call) in CALLS.iter().filter(|call| call.0 == kind) {
        lines.lines().for_each(|line| call(&site, black_box(line)));
    }
}
