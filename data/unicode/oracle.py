#!/usr/bin/env python3
"""Answers rows about the extensions u and t, and about Unicode locale identifiers, by a plain reading of UTS #35, part 1, Annex C. The
aliases of CLDR are applied until none fits, as the standard says. It shares the data with the crates and with generate.py, but no code.

Intl.Locale (Node 20.20, ICU 78.2) gives other forms for some rare tags: en-x and en-a, which are no tags, for en-x-true and en-a-true; en-u-ca
for en-u-ca-yes, although CLDR replaces yes only for kb, kc, kh, kk and kn; nsi-Latn for sgn-Latn-NO, which the registry makes nsl-Latn; and
both fields of en-t-m0-xyz-m0-abc, of which the first counts here. It makes ak and bho of tw and bh, but getCanonicalLocales keeps these.

usage: oracle.py each                     prints rows for everything in the data: each alias, each heir of a region, each language
       oracle.py random COUNT SEED        prints that many rows about random tags
       oracle.py rows < ROWS              prints each row with its answer
       oracle.py rows --compare ANSWERS < ROWS
                                          counts the rows whose answer differs from that of a program
"""
from __future__ import annotations

import functools
import pathlib
import random
import re
import sys
from collections.abc import Iterator

sys.path.append(str(pathlib.Path(__file__).resolve().parent.parent))
import answers  # noqa: E402

HERE = pathlib.Path(__file__).resolve().parent
LIKELY = HERE.parent / "likely/cldr"
REGISTRY = answers.registry_oracle().registry()


def lines(path: pathlib.Path) -> list[list[str]]:
    return [line.split() for line in path.read_text(encoding="utf-8").lower().splitlines() if not line.startswith("#")]


# ---- the grammar: unicode_language_id, and the extensions u and t

IDENTIFIER = re.compile(r"([a-z]{2,3}|[a-z]{5,8})(?:-([a-z]{4}))?(?:-([a-z]{2}|[0-9]{3}))?((?:-(?:[a-z0-9]{5,8}|[0-9][a-z0-9]{3}))*)")
MARKED = re.compile(r"(?P<language>[a-z]{2,3})-(?P<extended>r(?P<marked>[a-z]{2})(-[a-z]{3}){,2})(?![^-])"
                    r"(?P<script>-[a-z]{4}(?![^-]))?(?P<region>-([a-z]{2}|[0-9]{3})(?![^-]))?(?P<rest>.*)")
FIELD_KEY = re.compile("[a-z][0-9]")

Identifier = tuple[str, str, str, tuple[str, ...]]  # language, script, region, variants; an absent field is empty


def identifier(text: str) -> Identifier | None:
    found = IDENTIFIER.fullmatch(text)
    return (found[1], found[2] or "", found[3] or "", tuple(found[4].split("-")[1:])) if found else None


def spelled(language: str, script: str, region: str, variants: tuple[str, ...]) -> str:
    return "-".join(filter(None, (language, script.title(), region.upper(), *variants)))


def keyed(subtags: list[str], is_key) -> tuple[list[str], list[tuple[str, list[str]]]]:
    """Returns the subtags before the first key, and each key with its values."""
    before, pairs = [], []
    for subtag in subtags:
        if is_key(subtag):
            pairs.append((subtag, []))
        else:
            (pairs[-1][1] if pairs else before).append(subtag)
    return before, pairs


def keywords(subtags: list[str]):
    return keyed(subtags, lambda subtag: len(subtag) == 2)


def transform(subtags: list[str]):
    return keyed(subtags, FIELD_KEY.fullmatch)


def has_repeats(items) -> bool:
    return len(set(items)) < len(items)


def is_well_formed(singleton: str, subtags: list[str]) -> bool:
    """Returns whether an extension is one of UTS #35."""
    if singleton == "u":
        return all(key[1].isalpha() for key, _ in keywords(subtags)[1])
    if singleton == "t":
        language, pairs = transform(subtags)
        found = identifier("-".join(language))
        is_language = not language or (found is not None and not has_repeats(found[3]))
        return is_language and all(values and all(len(value) > 2 for value in values) for _, values in pairs)
    return True


def split(tag: str) -> tuple[str, list[tuple[str, list[str]]], list[str]] | None:
    """Returns the text before the extensions of a normal tag, each extension, and the private use subtags. All are in lowercase."""
    subtags = tag.lower().split("-")
    starts = [at for at, subtag in enumerate(subtags) if len(subtag) == 1]
    if starts[:1] == [0]:
        return None
    private = next((at for at in starts if subtags[at] == "x"), len(subtags))
    starts = [at for at in starts if at < private]
    ends = [*starts[1:], private]
    extensions = [(subtags[start], subtags[start + 1 : end]) for start, end in zip(starts, ends)]
    return "-".join(subtags[: starts[0] if starts else private]), extensions, subtags[private:]


def is_locale(tag: str) -> bool:
    parts = split(tag)
    found = parts and identifier(parts[0])
    if not parts or not found or has_repeats(found[3]) or has_repeats([singleton for singleton, _ in parts[1]]):
        return False
    return all(is_well_formed(*extension) for extension in parts[1])


# ---- the canonical form of the extensions

TYPES = {(extension, key, old): new for extension, key, old, new in lines(HERE / "cldr/type-alias.txt")}
SUBDIVISIONS = {old: codes[0] for old, _, *codes in lines(HERE / "cldr/subdivision-alias.txt")}


def canonical_value(singleton: str, key: str, values: list[str]) -> list[str]:
    value = "-".join(values)
    value = TYPES.get((singleton, key, value), value)
    if singleton == "u" and key in ("rg", "sd"):
        value = SUBDIVISIONS.get(value, value)
        value += "zzzz" if len(value) == 2 else ""
    return [] if not value or (singleton, value) == ("u", "true") else value.split("-")


def canonical_pairs(singleton: str, pairs) -> list[str]:
    """Returns the keys in alphabetical order, each with its first value in canonical form."""
    first = {key: values for key, values in reversed(pairs)}
    return [subtag for key in sorted(first) for subtag in (key, *canonical_value(singleton, key, first[key]))]


def canonical_extension(singleton: str, subtags: list[str], form) -> list[str]:
    """Returns the subtags of an extension in canonical form. `form` gives the form of the language of an extension t."""
    if singleton == "u":
        attributes, pairs = keywords(subtags)
        return sorted(set(attributes)) + canonical_pairs("u", pairs)
    if singleton == "t":
        language, pairs = transform(subtags)
        return (form(identifier("-".join(language))).lower().split("-") if language else []) + canonical_pairs("t", pairs)
    return subtags


def with_variants_in_order(found: Identifier) -> str:
    return spelled(*found[:3], tuple(sorted(found[3])))


def extensions_form(tag: str) -> str:
    """Returns the tag with its first u and its first t in canonical form. All other bytes stay."""
    parts = split(tag)
    if not parts:
        return tag
    out, at, seen = tag[: len(parts[0])], len(parts[0]), set()
    for singleton, subtags in parts[1]:
        standing = tag[at : at + len("-".join(["", singleton, *subtags]))]
        at += len(standing)
        is_changed = singleton in "ut" and singleton not in seen and (singleton == "u" or is_well_formed(singleton, subtags))
        seen.add(singleton)
        out += "-".join(["", singleton, *canonical_extension(singleton, subtags, with_variants_in_order)]) if is_changed else standing
    return out + tag[at:]


# ---- the canonical form of identifiers

def registered(kind: str) -> list[str]:
    return [name.lower() for name in REGISTRY.names[kind]]


# The whole tags of the registry that have a Preferred-Value, each with that value.
PREFERRED = {tag: REGISTRY.whole(tag).lower() for kind in ("grandfathered", "redundant") for tag in registered(kind) if REGISTRY.whole(tag)}
EXTLANGS, GRANDFATHERED = REGISTRY.kinds["extlang"], REGISTRY.kinds["grandfathered"]
LIKELY_SUBTAGS = {tuple(row[:3]): row[3:] for row in lines(LIKELY / "likely.txt")}
REGION_ALIASES = lines(LIKELY / "region-alias.txt")


def rules() -> Iterator[tuple[str, list[str]]]:
    """Yields the aliases of CLDR: a language identifier, and the identifiers of which one replaces it."""
    for old, new in lines(HERE / "cldr/language-alias.txt"):
        yield old, [PREFERRED["sgn-no"] if old == "sgn-no" else new]  # CLDR has another language than IANA's registry
    for old, *new in lines(LIKELY / "language-alias.txt"):
        yield old, ["-".join(field for field in new if field != "-")]
    for old, *new in REGION_ALIASES:
        yield f"und-{old}", [f"und-{region}" for region in new]


def in_order(rule) -> tuple:
    """Orders rules as Annex C does: rules with more fields come first."""
    language, script, region, variants = rule[0]
    size = (language != "und") + bool(script) + bool(region) + len(variants)
    return -size, language == "und", language, script, region, sorted(variants)


RULES = sorted(((identifier(old), [identifier(one) for one in new]) for old, new in rules()), key=in_order)


@functools.lru_cache(None)
def rules_of(language: str):
    return [(old, new) for old, new in RULES if old[0] in ("und", language)]


def likely_region(language: str, script: str) -> str:
    language, script = "-" if language == "und" else language, script or "-"
    return next((LIKELY_SUBTAGS[key][2] for key in ((language, script, "-"), (language, "-", "-")) if key in LIKELY_SUBTAGS), "")


def fits(old: Identifier, found: Identifier) -> bool:
    return old[1] in ("", found[1]) and old[2] in ("", found[2]) and set(old[3]) <= set(found[3])


def replaced(old: Identifier, new: list[Identifier], found: Identifier) -> Identifier:
    """Applies a rule. Of several regions, the likely one of language and script is taken, or else the first."""
    language, script, region, variants = found
    heir = next((one for one in new if one[2] == likely_region(language, script)), new[0]) if len(new) > 1 else new[0]
    language = language if heir[0] == "und" else heir[0]
    script = heir[1] if old[1] or not script else script
    region = heir[2] if old[2] or not region else region
    return language, script, region, tuple(sorted((set(variants) - set(old[3])) | set(heir[3])))


@functools.lru_cache(None)
def canonical_identifier(found: Identifier) -> str:
    found = (*found[:3], tuple(sorted(found[3])))
    while rule := next((rule for rule in rules_of(found[0]) if fits(rule[0], found)), None):
        found = replaced(*rule, found)
    return spelled(*found)


def form_of_locale(tag: str) -> str | None:
    if not is_locale(tag):
        return None
    before, extensions, private = split(tag)
    out = [canonical_identifier(identifier(before))]
    for singleton, subtags in sorted(extensions):
        out += [singleton, *canonical_extension(singleton, subtags, canonical_identifier)]
    return "-".join(out + private)


def read(tag: str) -> str:
    """Returns a tag without `r` before its region, as Android writes it: es-us for es-rus."""
    found = MARKED.fullmatch(tag.lower())
    if not found or REGISTRY.prefixes.get(("extlang", found["extended"].split("-")[-1])) == [found["language"]]:
        return tag
    return found["language"] + (found["script"] or "") + (found["region"] or "-" + found["marked"]) + found["rest"]


def locale_form(tag: str) -> str | None:
    """Returns the form of a Unicode locale identifier, in which Android's `r` before a region is no letter. Of any other tag, it is the
    form of the Preferred-Value, or of the tag from its extended language on."""
    if is_locale(read(tag)):
        tag = read(tag)
        return form_of_locale(tag)
    text = tag.lower()
    if text in PREFERRED or text in GRANDFATHERED:
        return form_of_locale(PREFERRED.get(text, ""))
    language, extended, *rest = (text + "-").split("-")
    if len(language) in (2, 3) and extended in EXTLANGS and not re.match("[a-z]{3}(-|$)", "-".join(rest)):
        return form_of_locale("-".join([extended, *rest]).rstrip("-"))
    return None


# ---- rows

CALLS = {"extensions-form": extensions_form, "locale-form": locale_form, "is-locale": lambda tag: "yes" if is_locale(tag) else "no"}


def answer(row: str) -> str:
    call, tag = row.split(" | ")
    return CALLS[call](tag) or "-"


def of_both(tag: str) -> list[str]:
    return [f"locale-form | {tag}", f"is-locale | {tag}", f"extensions-form | {tag}"]


def about_identifiers() -> Iterator[str]:
    """Yields rows for each alias of language identifiers, alone and with other fields, and as the language of an extension t."""
    for old, _ in RULES:
        text = spelled(*old)
        yield from of_both(text)
        yield from (f"locale-form | {it}" for it in (f"und-t-{text}", f"{text}-fonipa", f"{text}-u-co-true"))
        if not old[1] + old[2] and not old[3]:
            yield from (f"locale-form | {text}-{more}" for more in ("Cyrl", "US", "Latn-DE-1996", "SU", "Arab-TR"))
    for kind, before in (("language", ""), ("script", "und-"), ("region", "und-"), ("variant", "und-")):
        yield from (f"locale-form | {before}{subtag}" for subtag in registered(kind))


def about_heirs() -> Iterator[str]:
    """Yields rows for each region with several heirs, with each language and script that have a likely region among them."""
    keys = {key[:2] for key in LIKELY_SUBTAGS if key[2] == "-"} | {tuple(row[:2]) for row in LIKELY_SUBTAGS.values()}
    names = {key: "-".join(["und" if key[0] == "-" else key[0], *key[1:]]).removesuffix("--") for key in keys}
    for old, *new in (row for row in REGION_ALIASES if len(row) > 2):
        for key, name in sorted(names.items()):
            if likely_region(*(field.replace("-", "") or "und" for field in key)) in new:
                yield f"locale-form | {name}-{old}"


def about_extensions() -> Iterator[str]:
    for singleton, key, old in TYPES:
        yield from of_both(f"de-{singleton}-{key}-{old}")
        yield f"extensions-form | de-{singleton}-{key}-{old}-abc"
    for old in SUBDIVISIONS:
        yield from (row for key in ("rg", "sd", "ca") for row in of_both(f"de-u-{key}-{old}"))
    for subtag in registered("region"):
        yield f"extensions-form | de-u-rg-{subtag}"


def each() -> list[str]:
    return [*about_identifiers(), *about_heirs(), *about_extensions()]


def random_keywords(rng: random.Random) -> list[str]:
    """Returns an extension u or t, in which keys may be repeated."""
    singleton, key, old = rng.choice([*TYPES, ("u", "rg", rng.choice([*SUBDIVISIONS])), ("u", "co", "true"), ("t", "m0", "true"), ("u", "kn", "")])
    pairs = [(key, old), *((rng.choice(("ca", "nu", "x0", "d0", "sd", "a0")), rng.choice(("abc", "yes", "true", "de-berlin"))) for _ in range(rng.randrange(3)))]
    rng.shuffle(pairs)
    before = rng.choice(([], ["foo"], ["zz9z", "aaa"])) if singleton == "u" else rng.choice(([], [random_identifier(rng).lower()]))
    return [singleton, *before, *(word for pair in pairs for word in pair if word)]


def random_identifier(rng: random.Random) -> str:
    """Returns a language identifier, often one with an alias."""
    language, script, region, variants = rng.choice(RULES)[0] if rng.random() < 0.5 else ("und", "", "", ())
    language = rng.choice((language, "und", "sgn", "hy", "zh", "ja", rng.choice(RULES)[0][0], rng.choice([*LIKELY_SUBTAGS])[0].strip("-") or "de"))
    script = script or rng.choice(("", "", "latn", "cyrl", "arab", "armn", "qaai"))
    region = region or rng.choice(("", "", "su", "us", rng.choice(REGION_ALIASES)[0]))
    more = rng.sample(("1996", "aaland", "heploc", "hepburn", "arevela", "polytoni", "fonipa"), rng.choice((0, 0, 0, 1, 2)))
    return spelled(language, script, region, tuple(dict.fromkeys([*variants, *more])))


def random_row(rng: random.Random) -> str:
    subtags = [random_identifier(rng)]
    for _ in range(rng.randrange(3)):
        subtags += random_keywords(rng) if rng.random() < 0.9 else ["a", "bb"]
    if rng.random() < 0.1:
        subtags += ["x", "u", "true"]
    tag = "-".join(subtags)
    return f"{rng.choice([*CALLS])} | {tag.upper() if rng.random() < 0.1 else tag}"


if __name__ == "__main__":
    sys.exit(answers.main(sys.argv[1:], __doc__, answer, each, random_row))
