#!/usr/bin/env python3
"""Writes files from IANA's language subtag registry, which is beside this file in its original format (RFC 5646 section 3.1.1): the
tables and lists of the crate langtag_fields, and the pages of proofs that compare them. premises.py has the premises of the crate.
"""
from __future__ import annotations

import pathlib
import re
import sys

sys.path.append(str(pathlib.Path(__file__).resolve().parent.parent))
import common  # noqa: E402
from common import Generator, Refused, bits, codes, folded_number, joined, keys, refuse, run, table, text_of  # noqa: E402
from premises import broken  # noqa: E402
from proof_pages import PAGES  # noqa: E402
from records import TAG_TYPES, Registry  # noqa: E402

REGISTRY = "data/registry/language-subtag-registry"
TABLES = "crates/langtag_fields/src/tables.rt"
LISTS = "crates/langtag_fields/specs/Subtags.antt"
PROOFS = "crates/langtag_fields/proofs"
MODULE = "bindings/postgresql/registry_date.mk"

# The lists: the Types of their records.
SUBTAGS = ["language", "extlang", "script", "region", "variant"]
DEPRECATED = ["language", "extlang", "region", "variant"]

# The fields of a subtag: the Type, the field, the list of specs/, and the tables.
FIELDS = [
    ("language", "Preferred-Value", "language_preferred", "PREFERRED_LANGUAGE"),
    ("language", "Suppress-Script", "language_suppress_script", "SUPPRESS_SCRIPT"),
    ("language", "Macrolanguage", "language_macrolanguage", "MACROLANGUAGE"),
    ("extlang", "Prefix", "extlang_prefixes", "EXTLANG_PREFIX"),
    ("region", "Preferred-Value", "region_preferred", "PREFERRED_REGION"),
    ("variant", "Preferred-Value", "variant_preferred", "PREFERRED_VARIANT"),
]


def end_number(text):
    return folded_number(text[-8:])


def subtags(registry, kind, field=None):
    """Returns the subtags of a Type, or only those with a given field, in the order of their numbers."""
    return sorted((record.text for record in registry.all(kind, having=field)), key=folded_number)


def values(registry, kind, field):
    return [(text, value) for text in subtags(registry, kind, field) for value in registry.get(kind, text).values(field)]


def deprecated_tags(registry):
    return [text for kind in TAG_TYPES for text in subtags(registry, kind, "Deprecated")]


def quoted(texts):
    return [f'"{text}"' for text in texts]


def key_table(name, what, texts):
    return keys(name, f"The keys of the {what}, in ascending order: each key is the number whose base-256 digits are the lowercase bytes.", 64, map(folded_number, texts))


def whole_tags(registry):
    """Returns the grandfathered and redundant tags with a Preferred-Value, with that value, in the order of the numbers of their
    ends."""
    return sorted((pair for kind in TAG_TYPES for pair in values(registry, kind, "Preferred-Value")), key=lambda pair: end_number(pair[0]))


def tables(registry):
    out = [f"//! The registry in tables. Written by data/registry/generate.py from the registry of {registry.date}. Do not edit.\n",
           "/// The File-Date of the registry in this crate (RFC 5646 section 3.1.1).\n"
           f'pub const FILE_DATE: &str = "{registry.date}";\n',
           table("LANGUAGE_BITS", "A bit for each text of two letters, and then of three, in alphabetical order: it is set if the text is a language.\n"
                 "/// The first text has the lowest bit of the first word.", "u64", [f"0x{word:016X}" for word in bits(subtags(registry, "language"))])]
    for kind in SUBTAGS[1:]:
        out.append(key_table(f"{kind.upper()}_KEYS", f"{kind}s", subtags(registry, kind)))
    for kind in DEPRECATED:
        out.append(key_table(f"DEPRECATED_{kind.upper()}_KEYS", f"deprecated {kind}s", subtags(registry, kind, "Deprecated")))
    for kind, field, _, name in FIELDS:
        texts, beside = zip(*values(registry, kind, field))
        out.append(key_table(f"{name}_KEYS", f"{kind}s with a {field}", texts))
        distinct = sorted(set(beside))
        out.append(table(f"{name}_INDICES", f"The index in `{name}_VALUES` of the {field} of each {kind} of `{name}_KEYS`.", "u8", map(distinct.index, beside)))
        out.append(table(f"{name}_VALUES", f"Each {field} of {kind}s, in alphabetical order.", "&str", quoted(distinct)))
    out.append(keys("PREFERRED_TAG_KEYS", "The keys of the whole tags with a Preferred-Value, in ascending order: each key is the number whose base-256 digits are the last eight bytes of a tag, in lowercase.",
                    64, [end_number(text) for text, _ in whole_tags(registry)]))
    out.append(table("PREFERRED_TAGS", "Each tag of `PREFERRED_TAG_KEYS`, and its Preferred-Value.", "(&str, &str)",
                     [f'("{text}", "{value}")' for text, value in whole_tags(registry)]))
    out.append(table("DEPRECATED_TAGS", "The deprecated grandfathered and redundant tags.", "&str", quoted(deprecated_tags(registry))))
    prefixes = values(registry, "variant", "Prefix")
    out.append(table("VARIANT_PREFIXES", "The key of a variant, and one of its prefixes. The key is the number whose base-256 digits are the lowercase bytes of the variant.", "(u64, &str)",
                     [f'(0x{folded_number(text):016X}, "{prefix}")' for text, prefix in prefixes]))
    return "\n".join(out)


def text_list(name, doc, subtags):
    """Returns a list of texts. A long list has one literal for each first letter."""
    if len(subtags) < 1000:
        return f"-- {doc}\nunfoldable pub {name} : List (List ℕ)\n{name} = words ({codes(subtags)})\n"
    groups = {}
    for text in subtags:
        groups.setdefault((len(text), text[0].lower() if len(text) > 2 else ""), []).append(text)
    return joined(name, doc, "(List ℕ)", "words", map(codes, groups.values()))


def entry_list(name, doc, pairs):
    return f"-- {doc}\nunfoldable pub {name} : List Entry\n{name} = entries (words ({codes(map(' '.join, pairs))}))\n"


def lists(registry):
    out = [f"-- The registry (RFC 5646 section 3.1). Written by data/registry/generate.py from the registry of {registry.date}. Do not edit.\n"
           "use Rattle.std.specs.Prelude.{ℕ, List, [], ◌∷◌, codes}\nuse Rattle.std.specs.List.{flat_map}\n"
           "use Rattle.langtag_text.specs.Words.{words}\nuse Rattle.langtag_fields.specs.Entry.{Entry, entries}\n"]
    for kind in SUBTAGS:
        out.append(text_list(f"{kind}_subtags", f"the Subtag fields of the records of Type {kind}, ranges written out", subtags(registry, kind)))
    for kind in DEPRECATED:
        out.append(text_list(f"deprecated_{kind}s", f"the Subtag fields of the records of Type {kind} with a Deprecated field", subtags(registry, kind, "Deprecated")))
    out.append(text_list("deprecated_tags", "the Tag fields of the records of Type grandfathered and redundant with a Deprecated field", deprecated_tags(registry)))
    for kind, field, name, _ in FIELDS:
        out.append(entry_list(name, f"the records of Type {kind} with a {field} field: each Subtag, and then the value of that field", values(registry, kind, field)))
    out.append(entry_list("tag_preferred", "the records of Type grandfathered and redundant with a Preferred-Value field: each Tag, and then the value of that field", whole_tags(registry)))
    out.append(entry_list("variant_prefixes", "the records of Type variant with Prefix fields: for each such field the Subtag, and then the value of the field", values(registry, "variant", "Prefix")))
    return "\n".join(out)


def module_date(registry):
    """Returns the Makefile's line with the date that is in the name of PostgreSQL's module."""
    return f"# The date of the registry in the library. Written by data/registry/generate.py. Do not edit.\nREGISTRY_DATE = {registry.date}\n"


def written(registry):
    """Returns the files that are made from a registry: the path and the text of each."""
    files = {TABLES: tables(registry), LISTS: lists(registry), MODULE: module_date(registry)}
    return files | {f"{PROOFS}/{name}.antt": page() for name, page in PAGES.items()}


def read():
    try:
        return Registry(text_of(REGISTRY).replace("\r\n", "\n"))
    except UnicodeDecodeError as error:
        raise Refused(f"the file is not UTF-8: {error}") from None


class OfRegistry(Generator):
    checksums = f"{REGISTRY}.sha256"

    def data(self):
        return [REGISTRY]

    def written(self):
        registry = read()
        refuse(broken(registry))
        return written(registry)

    def lost(self, named):
        """Returns a line for a registry that is not newer, and for the subtags and tags of the current lists that it lacks. No record
        is ever removed (section 3.4)."""
        registry, lists = read(), common.lists_of(LISTS)
        date = re.search(r'FILE_DATE: &str = "([0-9-]+)"', text_of(TABLES))
        if date and registry.date <= date[1]:
            yield f"a registry of {registry.date}, with other bytes, is not newer than that of {date[1]}, which stands"
        for kind in SUBTAGS:
            for text in lists.get(f"{kind}_subtags", []):
                if not registry.get(kind, text):
                    yield f"{kind} {text}: registered before, and not in this registry"
        for text in lists.get("tag_preferred", [])[::2] + lists.get("deprecated_tags", []):
            if not any(registry.get(kind, text) for kind in TAG_TYPES):
                yield f"{text}: a whole tag before, and not in this registry"


if __name__ == "__main__":
    sys.exit(run(OfRegistry(), sys.argv[1:]))
