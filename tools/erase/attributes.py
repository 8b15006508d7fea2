"""Adds what users of a Rust crate expect and a Rattle source has not: derives, `#[must_use]`, `#[non_exhaustive]`, `const`, `self` for
`&self`, and names that say that a call returns an AllocError."""

# Types that may get more fields or variants.
GROWING = {
    "AcceptLanguageError", "BestMatch", "EditError", "ElementPart", "KeyValue", "KeywordError", "PosixError",
    "Refusal", "RefusalKind", "SetKeywordError",
}

# Derives of types that a neighbour has, too. A derived comparison compares the fields as their own types do.
DERIVED = {name: derived for derived, names in {
    "Clone": "AttributesIter ExtensionIter ExtensionTexts ExtensionsIter KeywordsIter LanguageExtensionIter PrivateUseIter Subtags VariantsIter "
             "WantedRanges",
    "Hash": "EditError Ends KeywordError Refusal RefusalKind SetKeywordError TypedLangTag WeightedRange",
    "PartialEq, Eq, Hash": "BestMatch InRecommendedCase KeyValue Transformation WantedRange",
    "Clone, PartialEq, Eq, Hash": "AcceptLanguage AcceptLanguageError PosixError",
    "Clone, Copy, PartialEq, Eq, Hash": "ElementPart",
}.items() for name in names.split()}

# Those of the errors that contain only the refused text.
REFUSING = "Clone, Copy, PartialEq, Eq, Hash"

# Functions that rustc can also call when it compiles, by file. Of two functions of one name, it is the first: that of the borrowed type, not of
# the owned type, since `String::as_str` is `const` only since Rust 1.87.
OF_TEXT = {"as_str", "as_bytes"}
OF_KIND = {"is_normal", "is_private_use", "is_grandfathered"}
CONST = {
    **dict.fromkeys("extended_lang_tag extension extension_subtag extensions language language_extension private_use_subtag variant "
                    "variants".split(), OF_TEXT),
    **dict.fromkeys(("primary_language", "private_use", "region", "script"), {"from_checked", *OF_TEXT}),
    "class": {"is_letter", "is_digit", "are_letters", "are_digits", "is_primary", "is_script", "is_region"},
    "ends": {"new", "set", "ends", "later"},
    "found": {"ends", "irregular", "is_normal", "is_private_use"},
    "grandfathered": {"at", *OF_TEXT},
    "kind": OF_KIND,
    "lang_tag": {"with_found", "as_typed", "is_normal", "is_private_use", *OF_TEXT},
    "normal_lang_tag": {"with_ends", "ends", *OF_TEXT},
    "recognise_text": {"recognise_bytes"},
    "recognised": {"is_normal", "is_private_use"},
    "slice_reader": {"read_bytes"},
    "state": {"start", "after", "after_class", "part_before", "ending"},
    "typed_lang_tag": {"kind", "as_normal", "as_private_use", "as_grandfathered", *OF_KIND},
}

# The types whose methods take `self`, since they are `Copy`: so `.map(Script::as_str)` is possible.
VALUES = set("""
    ExtendedLangTag Extension ExtensionSubtag Extensions Found GrandfatheredLangTag Kind LangTag Language LanguageExtension LanguageRange
    NormalLangTag PrimaryLanguage PrivateUse PrivateUseSubtag Region Script Transformation TypedLangTag Variant Variants
""".split())

# Methods that return an error if allocation fails: as in `try_to_owned`, their names say so. And methods for which one of the same
# name is written by hand, which takes more types.
RENAMED = {"from_parts": "try_from_parts", "lenient": "try_lenient"}
WRAPPED = [
    ("pub fn get(&self, singleton: Singleton)", "pub(crate) fn get_singleton(&self, singleton: Singleton)"),
    ("self.get(singleton)", "self.get_singleton(singleton)"),
    ("extensions.get(singleton)", "extensions.get_singleton(singleton)"),
    ("extensions().get(singleton)", "extensions().get_singleton(singleton)"),
    ("pub fn iter_extension(", "pub(crate) fn iter_singleton("),
    ("pub fn matches_basic(&self, tag: &LangTag", "pub(crate) fn is_basic_match(&self, tag: &LangTag"),
    ("pub fn matches_extended(&self, tag: &LangTag", "pub(crate) fn is_extended_match(&self, tag: &LangTag"),
    ("range.matches_basic(&tag)", "range.is_basic_match(&tag)"),
    ("range.matches_extended(&tag)", "range.is_extended_match(&tag)"),
    ("pub fn look_up<'t>(&self, tags", "pub(crate) fn look_up_tag<'t>(&self, tags"),
    ("accepted.look_up(tags, default)", "accepted.look_up_tag(tags, default)"),
    ("pub fn new(bytes: &[u8]) -> Result<Self, &[u8]>", "pub fn new<T: AsRef<[u8]>>(bytes: T) -> Result<Self, T>"),
    ("first_alike(&GRANDFATHERED, bytes)", "first_alike(&GRANDFATHERED, bytes.as_ref())"),
]


def rename_calls(code):
    for place in range(len(code)):
        if code[place] in RENAMED and code[place + 1] == "(" and code[place - 1] in ("fn", ":"):
            code.replace(place, place + 1, RENAMED[code[place]])
    for old, new in WRAPPED:
        code.rewrite(old, new)


def add_attributes(code, source):
    take_values(code)
    place = 0
    while (place := code.find("pub fn", place)) >= 0:
        if should_be_used(code, place):
            place = code.replace(place, place, "#[must_use]\n")
        place += 1
    place, names = 0, set(CONST.get(source.stem, ()))
    while place < len(code):
        if code[place] == "pub" and code[keyword := after_visibility(code, place)] in ("struct", "enum"):
            place = add_to_type(code, place, code[keyword + 1], code[keyword])
        elif code[place] == "fn" and code[place + 1] in names:
            names.remove(code[place + 1])
            place = code.replace(place, place + 1, "const fn")
        place += 1


def take_values(code):
    """Changes `&self` to `self` in the methods of `Copy` types, except those of traits."""
    for start in range(len(code)):
        if code[start] != "impl" or code[start - 1] not in ("", "}", "]", ";"):
            continue
        body = code.next_of(("{",), start)
        if not code.words(start, body) & VALUES or "for" in code.words(start, body):
            continue
        for at in range(code.after(body) - 1, body, -1):
            if code.at(at, "*", "self") or (code.at(at, "&", "self") and code[at + 2] in (",", ")")):
                code.replace(at, at + 1, "")
            elif code.at(at, "Some", "(", "*", "tag", ")"):
                code.replace(at + 2, at + 3, "")


def after_visibility(code, place):
    """Returns the place after `pub` or `pub(crate)`."""
    return code.after(place + 1) if code[place + 1] == "(" else place + 1


def add_to_type(code, place, name, keyword):
    """Adds attributes before a type, and returns its new place."""
    derived = REFUSING if keyword == "struct" and name.startswith("Invalid") else DERIVED.get(name)
    new = f"#[derive({derived})]\n" if derived else ""
    new += "#[non_exhaustive]\n" if name in GROWING else ""
    return code.replace(place, place, new) if new else place


def should_be_used(code, place):
    """Returns whether a function returns a value that is no Result, and does nothing else."""
    body = next(at for at in range(place, len(code)) if code[at] in ("{", ";"))
    arrow = next((at for at in range(place, body) if code.at(at, "-", ">") and at > code.after(parameters(code, place)) - 1), None)
    if arrow is None or code[arrow + 2] in ("Result", "!"):
        return False
    return not any(code.at(at, "&", "mut") or (code.at(at, "mut") and code[at - 1] != "(") for at in range(place, arrow))


def parameters(code, place):
    while code[place] != "(":
        place += 1
    return place
