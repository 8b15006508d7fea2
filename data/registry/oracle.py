#!/usr/bin/env python3
"""A plain implementation of RFC 5646 sections 2.1, 2.2.9, 3.1 and 4.5 over the registry's record-jar file, by regular expressions.

usage: oracle.py rows < ROWS                     prints each row with its answer: of validity, canonical, extlang-form, misplaced,
                                                 misplaced-extlang, registered, subtag
       oracle.py rows --compare ANSWERS < ROWS   counts the rows whose answer differs from that of a program
       oracle.py each                            prints rows for each registered text, and for all short languages and regions
       oracle.py random COUNT SEED               prints rows about so many texts: tags of the registry's subtags, mutants, and random ones
"""
from __future__ import annotations

import functools
import pathlib
import random
import re
import sys
from collections.abc import Iterator

sys.path.append(str(pathlib.Path(__file__).resolve().parent.parent))
import answers  # noqa: E402

REGISTRY = pathlib.Path(__file__).resolve().parent / "language-subtag-registry"
GRAMMAR = re.compile(r"(?P<language>[a-z]{2,3}(?P<ext>(?:-[a-z]{3}){0,3})|[a-z]{4}|[a-z]{5,8})(?:-(?P<script>[a-z]{4}))?(?:-(?P<region>[a-z]{2}|[0-9]{3}))?"
                     r"(?P<variants>(?:-(?:[a-z0-9]{5,8}|[0-9][a-z0-9]{3}))*)(?P<extensions>(?:-[a-wyz0-9](?:-[a-z0-9]{2,8})+)*)(?P<private>(?:-x(?:-[a-z0-9]{1,8})+)?)", re.I | re.A)
PRIVATE = re.compile(r"x(?:-[a-z0-9]{1,8})+", re.I | re.A)
EXTENSION = re.compile(r"-[a-z0-9](?:-[a-z0-9]{2,8})+", re.I | re.A)


class Registry:
    def __init__(self, path):
        self.kinds, self.fields, self.ranges, self.names, self.prefixes = {}, {}, [], {}, {}
        for block in pathlib.Path(path).read_text(encoding="utf-8").split("%%\n"):
            fields = {}
            for line in block.splitlines():
                name, _, value = line.partition(": ")
                fields.setdefault(name, value)
                if name == "Prefix":
                    self.prefixes.setdefault((fields["Type"], fields["Subtag"].lower()), []).append(value)
            if "Type" not in fields:
                continue
            kind, name = fields["Type"], (fields.get("Subtag") or fields["Tag"])
            if ".." in name:
                low, high = name.lower().split("..")
                self.ranges.append((kind, low, high))
            else:
                self.kinds.setdefault(kind, set()).add(name.lower())
                self.names.setdefault(kind, []).append(name)
            self.fields[kind, name.lower()] = fields

    def record(self, kind, text):
        """Returns the fields of the record for a text, or for the range that contains it, or None if there is no such record."""
        text = text.lower()
        for of, low, high in self.ranges:
            if of == kind and len(text) == len(low) and low <= text <= high:
                return self.fields[kind, low + ".." + high]
        return self.fields.get((kind, text), {})

    def has(self, kind, text):
        return bool(self.record(kind, text))

    def whole(self, text):
        """Returns the Preferred-Value of a grandfathered or redundant tag."""
        return self.field("grandfathered", "Preferred-Value", text) or self.field("redundant", "Preferred-Value", text)

    def field(self, kind, name, text):
        return self.record(kind, text).get(name)

    def validity(self, text):
        """Returns `none` for a text that is not a tag, `valid`, or what is wrong with the first invalid subtag, its offset, and the subtag."""
        if text.lower() in self.kinds["grandfathered"] or PRIVATE.fullmatch(text):
            return "valid"
        found = GRAMMAR.fullmatch(text)
        return self.fault(found) if found else "none"

    def canonical(self, text):
        """Returns the canonical form (section 4.5) in the case of section 2.1.1."""
        return recommended(self.steps(text))

    def steps(self, text):
        """Returns a tag after the steps of section 4.5: by a whole tag (step 2), or else by the parts (steps 1 and 3) and step 2 once
        more."""
        if self.whole(text):
            return self.whole(text)
        found = GRAMMAR.fullmatch(text)
        if not found or text.lower() in self.kinds["grandfathered"]:
            return text
        replaced = self.replaced(found)
        return self.whole(replaced) or replaced

    def replaced(self, found):
        primary, *extended = found["language"].split("-")
        if len(extended) == 1 and self.has("extlang", extended[0]):
            primary, extended = self.field("extlang", "Preferred-Value", extended[0]), []
        if len(extended) < 2:
            primary = self.field("language", "Preferred-Value", primary) or primary
        subtags = [primary, *extended]
        subtags += [self.field(kind, "Preferred-Value", found[kind]) or found[kind] for kind in ("script", "region") if found[kind]]
        subtags += [self.field("variant", "Preferred-Value", variant) or variant for variant in found["variants"].split("-")[1:]]
        extensions = sorted(EXTENSION.findall(found["extensions"]), key=lambda extension: extension[1].lower())
        return "-".join(subtags) + "".join(extensions) + found["private"]

    def extlang_form(self, text):
        """Returns the other form of section 4.5, in which a language that is also an extended language has its Prefix before it."""
        text = self.canonical(text)
        found = GRAMMAR.fullmatch(text)
        if not found or text.lower() in self.kinds["grandfathered"] or found["ext"] and found["ext"].count("-") == 3:
            return text
        prefix = self.prefixes.get(("extlang", found["language"].split("-")[0].lower()))
        return prefix[0] + "-" + text if prefix else text

    def misplaced(self, text):
        """Returns the first variant that follows none of its prefixes (section 3.1.8), by extended filtering (RFC 4647 section
        3.3.2). No singleton comes before a variant, so any subtags may be skipped."""
        found = GRAMMAR.fullmatch(text)
        if not found:
            return "-"
        before = text[:found.start("variants")]
        for variant in found["variants"].split("-")[1:]:
            prefixes = self.prefixes.get(("variant", variant.lower()), [])
            ranges = [prefix.replace("-", "(?:-[a-z0-9]+)*-") + "(?:-[a-z0-9]+)*" for prefix in prefixes]
            if ranges and not any(re.fullmatch(pattern, before, re.I | re.A) for pattern in ranges):
                return variant
            before += "-" + variant
        return "-"

    def misplaced_extlang(self, text):
        """Returns the extended language that follows a language other than its Prefix (section 3.1.8)."""
        found = GRAMMAR.fullmatch(text)
        if not found or not found["ext"]:
            return "-"
        primary, extended = found["language"].split("-")[:2]
        return extended if primary.lower() not in self.prefixes.get(("extlang", extended.lower()), [primary.lower()]) else "-"

    def fault(self, found):
        seen = set()
        for kind, start, subtag in subtags_of(found):
            if kind == "second-extlang" or kind != "singleton" and not self.has(kind, subtag):
                return f"{kind} {start} {subtag}"
            if kind in ("variant", "singleton") and (kind, subtag.lower()) in seen:
                return f"repeated-{kind} {start} {subtag}"
            seen.add((kind, subtag.lower()))
        return "valid"

    def fields_of(self, text):
        """Returns what a language's record says, and the Prefix of an extended language. A text of three letters may be both."""
        out = [self.field("language", name, text) for name in ("Preferred-Value", "Macrolanguage", "Suppress-Script")]
        prefixes = self.prefixes.get(("extlang", text.lower()), [None])
        return " ".join(it or "-" for it in out + prefixes * (len(text) == 3))


def recommended(text):
    """Returns a tag in the case of section 2.1.1: regions in uppercase and scripts in titlecase, but not at the beginning and behind
    a singleton."""
    subtags = text.lower().split("-")
    plain = next((index for index, subtag in enumerate(subtags) if len(subtag) == 1), len(subtags))
    cased = [it.upper() if len(it) == 2 else it.capitalize() if len(it) == 4 else it for it in subtags[1:plain]]
    return "-".join(subtags[:1] + cased + subtags[max(plain, 1):])


def subtags_of(found):
    """Yields each subtag that can be invalid, of which an extension has its singleton: its kind, its offset, and itself."""
    languages = iter(("language", "extlang"))
    for part, kind in (("language", None), ("script", "script"), ("region", "region"), ("variants", "variant"), ("extensions", "singleton")):
        for it in re.finditer("[^-]+", found[part] or ""):
            if kind != "singleton" or len(it[0]) == 1:
                yield kind or next(languages, "second-extlang"), found.start(part) + it.start(), it[0]


@functools.lru_cache(None)
def registry():
    return Registry(REGISTRY)


# ---- rows


# The answer to each call about a tag. Other texts have no answer.
CALLS = {
    "validity": Registry.validity, "canonical": Registry.canonical, "extlang-form": Registry.extlang_form, "misplaced": Registry.misplaced,
    "misplaced-extlang": Registry.misplaced_extlang, "registered": lambda its, tag: its.whole(tag) or "-", "subtag": Registry.fields_of,
}


def answer(row):
    call, word = row.split(" | ")
    text = answers.plain(word)
    return "-" if call != "validity" and registry().validity(text) == "none" else CALLS[call](registry(), text)


def rows_of(text):
    """Returns rows of the calls that C has, too."""
    return f"validity | {answers.escaped(text)}\ncanonical | {answers.escaped(text)}"


def each():
    letters, digits = "abcdefghijklmnopqrstuvwxyz", "0123456789"
    pairs = [a + b for a in letters for b in letters]
    yield from map(rows_of, pairs + [pair + c for pair in pairs for c in letters])
    yield from (rows_of("fr-" + region) for region in pairs + [a + b + c for a in digits for b in digits for c in digits])
    for kind, before in (("extlang", "zh-"), ("script", "fr-"), ("region", "fr-"), ("variant", "fr-"), ("grandfathered", ""), ("redundant", "")):
        yield from (rows_of(before + name) for name in registry().names[kind])


@functools.lru_cache(None)
def replaced(kind):
    """Returns the subtags of a kind that have a Preferred-Value."""
    return [name for of, name in registry().fields if of == kind and registry().field(kind, "Preferred-Value", name)]


def some(rng, kind):
    """Returns a subtag of a kind, mostly a registered one."""
    if rng.random() < 0.15:
        size = {"language": rng.choice([2, 3, 3, 4, 5]), "extlang": 3, "script": 4, "region": rng.choice([2, 3]), "variant": rng.choice([4, 5, 8])}[kind]
        of_digits = kind == "region" and size == 3 or kind == "variant" and size == 4
        return "".join(rng.choice("0123456789" if of_digits else "abcdefghijklmnopqrstuvwxyz") for _ in range(size))
    return rng.choice(replaced(kind) if replaced(kind) and rng.random() < 0.2 else registry().names[kind])


def cased(rng, text):
    how = rng.random()
    return text if how < 0.5 else text.upper() if how < 0.7 else "".join(rng.choice([c.upper(), c.lower()]) for c in text)


def prefixed(rng):
    """Returns a tag with a variant, or an extended language, after one of its prefixes, and with other subtags."""
    kind, name = rng.choice(list(registry().prefixes))
    parts = rng.choice(registry().prefixes[kind, name]).split("-")
    for extra in [name] + [some(rng, "variant") for _ in range(rng.choice([0, 1, 2]))]:
        parts.insert(rng.choice([len(parts), len(parts), rng.randrange(1, len(parts) + 1)]), extra)
    if rng.random() < 0.3:
        parts.insert(rng.choice([1, 1, len(parts)]), some(rng, rng.choice(["region", "script"])))
    return parts


def of_subtags(rng):
    parts = [some(rng, "language")]
    for kind, odds in (("extlang", 0.25), ("extlang", 0.05), ("script", 0.3), ("region", 0.4), ("variant", 0.3), ("variant", 0.2), ("variant", 0.1)):
        if rng.random() < odds:
            parts.append(parts[-1] if kind == "variant" and rng.random() < 0.2 else some(rng, kind))
    for _ in range(rng.choice([0, 0, 0, 1, 2, 3])):
        parts += [rng.choice("abcABCu01"), rng.choice(["aaa", "bb", "phonebk"])]
    return parts + (["x", rng.choice(["a", "iw", "mine"])] if rng.random() < 0.1 else [])


def random_row(rng):
    how = rng.random()
    if how < 0.12:
        text = rng.choice(registry().names["grandfathered"] + registry().names["redundant"]) + rng.choice(["", "", "", "-x-a", "-DD"])
    elif how < 0.17:
        text = rng.choice(["sgn-", "sgn-", "SGN-"]) + rng.choice(["DD", "FX", "BR", "BU", "ZR", "US"])
    elif how < 0.19:
        text = "x-" + "-".join(rng.choice(["a", "mine", "iw", "12345678", "", "123456789"]) for _ in range(rng.choice([1, 1, 2])))
    else:
        text = "-".join(prefixed(rng) if how < 0.27 else of_subtags(rng))
    text = cased(rng, text)
    if rng.random() < 0.08 and text:
        place = rng.randrange(len(text))
        text = text[:place] + rng.choice("-_ax19") + text[place + rng.choice([0, 1]):]
    return rows_of(text)


if __name__ == "__main__":
    sys.exit(answers.main(sys.argv[1:], __doc__, answer, each, random_row))
