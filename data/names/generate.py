#!/usr/bin/env python3
"""Writes the names of languages, scripts, regions and variants in English, and each language's own name, from Unicode's CLDR, as one packed
table: in rust/src/names/data.rs, and in bindings/include/langtag_names_data.h for the wrappers of C, from which bindings/js/build makes
JavaScript's. If CLDR has no name for a language, its name is the first Description in IANA's registry. The data are in cldr/ (from_cldr.py
writes them), ../registry, ../likely and ../unicode.

The table has three parts:

- PAIRS: the two bytes for which a byte of an English name stands, or zeros if the byte stands for itself. A frequent pair of bytes is
  replaced again and again, as long as there is a byte that no name has.
- INDEX: where the rows of the keys with the same first two characters begin, at their number in base 36. The last number is the end.
- ROWS: each is a byte below 32, which says what the key is, the rest of the key, and the name. A byte of 1 to 26 is the third letter of a
  language. After another byte than that of a language of two letters, the rest of the key is all but its first two characters, and a
  space. A name ends with a byte below 32, and the table with NUL. The language's own names are UTF-8, and NUL ends them, so C can return them.

A language that the locale form replaces with one that CLDR does not name has its own name in a row of its own: `him`, which becomes `srx`.
"""
from __future__ import annotations

import collections
import functools
import itertools
import pathlib
import re
import sys
from collections.abc import Callable

sys.path.extend(str(pathlib.Path(__file__).resolve().parent.parent / folder) for folder in ("", "registry"))
from common import Generator, Refused, cldr_version, each, files_of, rows_of, run, text_of  # noqa: E402
from records import Registry  # noqa: E402

DATA = "data/names/cldr"
REGISTRY = "data/registry/language-subtag-registry"
HEADER, MODULE = "bindings/include/langtag_names_data.h", "rust/src/names/data.rs"
ALIASES, WHOLE = "data/likely/cldr/language-alias.txt", "data/unicode/cldr/language-alias.txt"

read_registry = functools.lru_cache(maxsize=1)(Registry)  # the tests generate the files many times

# The form of the subtags of each file that follow a language.
SUBTAGS = {"scripts": "[A-Z][a-z]{3}", "regions": "[A-Z]{2}|[0-9]{3}", "variants": "[0-9][0-9a-z]{3}|[0-9a-z]{5,8}"}
# The bytes that begin rows. Smaller bytes are the third letters of languages, and greater ones are text.
TWO_LETTERS, SUBTAG, OWN, REPLACED, TEXT = 27, 28, 29, 30, 32
# The readers of C keep so many bytes while they expand one.
DEPTH = 16
TAG = "[a-z]{2,3}(-[A-Z][a-z]{3})?(-([A-Z]{2}|[0-9]{3}))?(-[a-z]{5,8})?"


def rows(name: str, form: str) -> dict[str, str]:
    """Returns the rows of a file of data: a subtag or tag in its recommended case, and its name."""
    found: dict[str, str] = {}
    for line in text_of(f"{DATA}/{name}.txt").splitlines():
        key, _, text = line.partition(" ")
        if key == "#":
            continue
        if not re.fullmatch(form, key) or not text.strip() or key in found:
            raise Refused(f"{name}.txt: not a subtag and its only name: {line}")
        found[key] = text
    return found


def english_names() -> dict[tuple[int, str], str]:
    """Returns the English names by the bytes that begin their rows, and the keys."""
    languages = rows("english-languages", "[a-z]{2,3}")
    replaced = {old: new for old, new, *_ in rows_of(ALIASES)}
    whole = {old.partition("-")[0] for old, _ in rows_of(WHOLE)}
    found = {kind_of(code): name for code, name in languages.items()}
    for code, record in read_registry(text_of(REGISTRY)).kinds["language"].items():
        form = replaced.get(code, code)
        if form not in languages and record.values("Description") != ["Private use"]:
            found[kind_of(code) if form == code else (REPLACED, code)] = record.values("Description")[0]
    each("names", "a replaced language and its replacement of three letters, and no tag of the language that is replaced as a whole",
         lambda code: len(code) == len(replaced[code]) == 3 and code not in whole, [code for kind, code in found if kind == REPLACED])
    for name, form in SUBTAGS.items():
        found |= {(SUBTAG, subtag): text for subtag, text in rows(f"english-{name}", form).items()}
    return found


def kind_of(code: str) -> tuple[int, str]:
    """Returns the byte that begins the row of a language, and the language."""
    return (ord(code[2]) & 31 if len(code) == 3 else TWO_LETTERS), code


def head() -> str:
    return (f"The names of Unicode's CLDR {cldr_version([*files_of(DATA), ALIASES])} (the notice: LICENSE-UNICODE) and of IANA's registry. "
            "Written by data/names/generate.py. Do not edit.")


def merged(names: list[str]) -> tuple[list[str], dict[str, str]]:
    """Returns the names with bytes for frequent pairs, and the pair of each such byte. The characters are bytes."""
    text, pairs = "\n".join(names), {}
    for byte in [chr(it) for it in range(TEXT, 256) if chr(it) not in set(text)]:
        counts = collections.Counter(pair for pair in zip(text, text[1:]) if "\n" not in pair)
        pairs[byte] = "".join(max(counts, key=lambda pair: (counts[pair], pair)))
        text = text.replace(pairs[byte], byte)
    return text.split("\n"), pairs


def depth(byte: str, pairs: dict[str, str]) -> int:
    """Returns how many bytes wait at most while a byte is expanded, the second of a pair after the first."""
    return max(depth(pairs[byte][0], pairs) + 1, depth(pairs[byte][1], pairs)) if byte in pairs else 1


@functools.lru_cache(maxsize=4)
def packed(tables: tuple[tuple[tuple[tuple[int, str], str], ...], ...]) -> tuple[list[str], list[int], list[str]]:
    """Returns the pair of each byte, the index, and the rows in groups. The characters are bytes."""
    english, own = ([(kind, key, name.encode().decode("latin-1")) for (kind, key), name in table] for table in tables)
    names, pairs = merged([name for _, _, name in english])
    each("names", f"a byte that expands with at most {DEPTH} bytes waiting", lambda byte: depth(byte, pairs) <= DEPTH, pairs)
    groups = [""] * 36**2
    languages_last = sorted([(kind < TWO_LETTERS, kind, key, name) for (kind, key, _), name in zip(english, names)]
                            + [(False, kind, key, f"{name}\0") for kind, key, name in own])
    for _, kind, key, name in languages_last:
        groups[int(key[:2], 36)] += chr(kind) + (f"{key[2:]} " if kind > TWO_LETTERS else "") + name
    groups[-1] += "\0"
    return [pairs.get(chr(byte), "\0\0") for byte in range(256)], list(itertools.accumulate(map(len, groups), initial=0)), list(filter(None, groups))


def in_lines(items: list, size: int, form: Callable = str) -> str:
    """Returns items as lines of so many."""
    return ",\n".join(",".join(map(form, items[start:start + size])) for start in range(0, len(items), size))


def header(pairs: list[str], index: list[int], groups: list[str]) -> str:
    """Returns the table for C, with a line for the rows whose keys begin with the same two characters."""
    rows = ",\n".join(",".join(str(ord(byte)) for byte in group) for group in groups)
    return f"""/* {head()} */
#ifndef LANGTAG_NAMES_DATA_H
#define LANGTAG_NAMES_DATA_H

#include <stdint.h>

static const unsigned char langtag_name_pairs[256][2] = {{
{in_lines(pairs, 16, lambda pair: f"{{{ord(pair[0])},{ord(pair[1])}}}")}}};
static const uint32_t langtag_name_index[{len(index)}] = {{
{in_lines(index, 36)}}};
static const unsigned char langtag_name_rows[] = {{
{rows}}};

#endif
"""


def module(pairs: list[str], index: list[int], groups: list[str]) -> str:
    """Returns the same for Rust."""
    rows = "\\\n".join("".join(byte if "!" <= byte <= "~" and byte not in '"\\' else f"\\x{ord(byte):02x}" for byte in group) for group in groups)
    return f"""//! {head()}

pub(super) static PAIRS: [[u8; 2]; 256] = [
{in_lines(pairs, 16, lambda pair: f"[{ord(pair[0])},{ord(pair[1])}]")}];
pub(super) static INDEX: [u32; {len(index)}] = [
{in_lines(index, 36)}];
pub(super) static ROWS: &[u8] = b"\\
{rows}";
"""


class OfNames(Generator):
    checksums = f"{DATA}.sha256"

    def data(self) -> list[str]:
        return files_of(DATA)

    def written(self) -> dict[str, str]:
        tables = english_names(), {(OWN, tag): name for tag, name in rows("autonyms", TAG).items()}
        table = packed(tuple(tuple(sorted(names.items())) for names in tables))
        return {HEADER: header(*table), MODULE: module(*table)}


if __name__ == "__main__":
    sys.exit(run(OfNames(), sys.argv[1:]))
