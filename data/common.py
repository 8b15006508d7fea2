"""What the generators share: their command line, data with checksums, premises, and the forms of tables and lists.

usage: generate.py                     writes the files from the data whose checksums are kept
       generate.py --accept [NAME..]   writes them from newer data, and their checksums
       generate.py --check             writes nothing, and names each fault: data with other checksums, a file that would be written
                                       differently

Data that break a premise of the crates are refused: the row or the record that breaks it is named, nothing is written, and the status is 1.
"""
from __future__ import annotations

import hashlib
import pathlib
import re
import sys
from collections.abc import Callable, Iterable

ROOT = pathlib.Path(__file__).resolve().parent.parent

# The irregular tags of the grammar (RFC 5646 section 2.1), in its order, in lowercase.
IRREGULAR = ("en-gb-oed i-ami i-bnn i-default i-enochian i-hak i-klingon i-lux i-mingo i-navajo i-pwn i-tao i-tay i-tsu "
             "sgn-be-fr sgn-be-nl sgn-ch-de").split()


class Refused(Exception):
    """Raised if data cannot be used. It has a line for each faulty row or record."""


class Generator:
    """A generator. Its paths, as text, begin at the top of the repository."""

    checksums = ""  # the file with the checksums of the data

    def data(self) -> list[str]:
        """Returns the paths of the data whose checksums are kept."""
        return []

    def written(self) -> dict[str, str]:
        """Returns the path and the text of each file that is made. Data that break a premise are refused."""
        raise NotImplementedError

    def lost(self, named: list[str]) -> Iterable[str]:
        """Returns a line for each thing that newer data lack, except for those that the command line names."""
        return []

    def news(self) -> list[str]:
        """Returns a line for each change that --accept has to take."""
        return []

    def sums(self) -> str:
        """Returns the lines of sha256sum for the data, so `sha256sum -c` can check them, too, at the top of the repository."""
        return "".join(f"{hashlib.sha256((ROOT / path).read_bytes()).hexdigest()}  {path}\n" for path in self.data())


def run(generator: Generator, words: list[str]) -> bool:
    """Does what the words of a command line ask, prints each fault, and returns whether there is one."""
    check, accept = words == ["--check"], words[:1] == ["--accept"]
    if words and not check and not accept:
        sys.exit(sys.modules[type(generator).__module__].__doc__ + __doc__.partition("\n")[2])
    told: list[str] = []
    try:
        newer = bool(generator.checksums) and generator.sums() != text_of(generator.checksums)
        if newer and accept:
            refuse(generator.lost(words[1:]))
        elif newer:
            told.append(f"the data are not those of {generator.checksums}; --accept takes newer data")
        files, news = generator.written(), generator.news()
        told += news
        if check:
            told += [f"differs: {path}" for path, text in files.items() if text != text_of(path)]
        elif accept or not told:
            write(files | ({generator.checksums: generator.sums()} if generator.checksums else {}))
    except Refused as refused:
        told, accept = [*told, str(refused)], False
    print(*told, sep="\n", end="\n" if told else "")
    return bool(told) and not accept


# ---- files


def text_of(path: str) -> str:
    """Returns the text of a file, or the empty text if there is none."""
    return (ROOT / path).read_bytes().decode("utf-8") if (ROOT / path).is_file() else ""


def lists_of(path: str) -> dict[str, list[str]]:
    """Returns the words of each list of a page of specs/."""
    lists = re.findall(r"(?ms)^(\w+)(?: form)? =(.*?)(?:\n\n|\Z)", text_of(path))
    return {name: " ".join(re.findall(r'codes "([^"]*)"', body)).split() for name, body in lists}


def write(files: dict[str, str]) -> None:
    for path, text in files.items():
        (ROOT / path).write_bytes(text.encode("utf-8"))


def files_of(folder: str) -> list[str]:
    """Returns the paths of the data in a folder, in order."""
    return sorted(str(path.relative_to(ROOT)) for path in (ROOT / folder).glob("*.txt"))


def rows_of(path: str) -> list[list[str]]:
    """Returns the rows of a data file, each as a list of words."""
    return [line.split() for line in text_of(path).splitlines() if not line.startswith("#")]


def cldr_version(paths: Iterable[str]) -> str:
    """Returns the version of CLDR, which the head of each data file has to name."""
    found = {path: re.search(r"^# .*Unicode CLDR ([0-9.]+) ", text_of(path), re.M) for path in paths}
    versions = {path: said[1] if said else "none" for path, said in found.items()}
    if len(set(versions.values())) != 1 or "none" in versions.values():
        raise Refused(f"the heads of the data do not name one version of CLDR: {versions}")
    return next(iter(versions.values()))


def write_cldr(common: pathlib.Path, version: str, source: str, folder: pathlib.Path, files: Iterable[tuple[str, str, str, Iterable[str]]]) -> None:
    """Writes data that are made from CLDR: for each file its name, its title, the files of CLDR of which it is made, and its lines. If one
    of them cannot be made, none is written."""
    notice = (common / "supplemental/likelySubtags.xml").read_text(encoding="utf-8")
    years, licence = (re.search(form, notice)[1] for form in (r"Copyright © ([0-9-]+) Unicode", r"SPDX-License-Identifier: (\S+)"))
    texts = {name: f"""# {title}
# From Unicode CLDR {version} (common/{of}; {source}).
# Copyright (c) {years} Unicode, Inc. Distributed under the Terms of Use in https://www.unicode.org/copyright.html
# SPDX-License-Identifier: {licence} (the notice: LICENSE-UNICODE)
""" + "".join(f"{line}\n" for line in lines) for name, title, of, lines in files}
    for name, text in texts.items():
        (folder / f"{name}.txt").write_text(text, encoding="utf-8")


# ---- premises


def refuse(lines: Iterable[str]) -> None:
    """Refuses data for which there are lines."""
    if found := list(lines):
        raise Refused("\n".join(found))


def each(name: str, premise: str, holds: Callable, rows: Iterable) -> None:
    """Refuses data with a row that does not have a property."""
    for row in rows:
        if not holds(row):
            raise Refused(f"{name}: a row breaks the premise: {premise}: {row if isinstance(row, (str, int)) else ' '.join(str(it) or '-' for it in row)}")


def once(name: str, rows: Iterable) -> None:
    seen = set()
    each(name, "a left side once", lambda row: not (row in seen or seen.add(row)), rows)


# ---- keys


def letter_number(text: str) -> int:
    """Returns a text as a number in base 26, whose digits are its letters; `a` is 1."""
    number = 0
    for letter in text.lower():
        number = number * 26 + ord(letter) - 96
    return number


def folded_number(text: str) -> int:
    """Returns a text as a number in base 256, whose digits are its lowercase bytes."""
    return int.from_bytes(text.lower().encode(), "big")


# ---- tables in Rattle


def head(comment: str, what: str, folder: str) -> str:
    """Returns the first line of a file that is made from Unicode's CLDR by a generator of this folder."""
    return f"{comment} {what} (the notice: LICENSE-UNICODE). Written by data/{folder}/generate.py. Do not edit.\n"


def in_lines(items: Iterable[str], width: int = 116, indent: str = "   ") -> str:
    lines, line = [], indent
    for item in items:
        if len(line) + 2 + len(item) > width:
            lines.append(line)
            line = indent
        line += " " + item + ","
    return "\n".join(lines + [line])


def table(name: str, doc: str, kind: str, items: Iterable) -> str:
    items = [str(item) for item in items]
    return f"/// {doc}\n#[rattlefmt::skip]\npub(crate) static {name}: [{kind}; {len(items)}] = [\n{in_lines(items)}\n];\n"


def keys(name: str, doc: str, bits: int, numbers: Iterable[int]) -> str:
    return table(name, doc, f"u{bits}", (f"0x{number:X}" for number in numbers))


def lists(name: str, doc: str, bits: int, rows: Iterable[Iterable[int]]) -> str:
    """Returns a table of lists of numbers."""
    texts = ["    &[\n" + in_lines((f"0x{number:X}" for number in row), indent="       ") + "\n    ],\n" for row in rows]
    return f"/// {doc}\n#[rattlefmt::skip]\npub(crate) static {name}: [&[u{bits}]; {len(texts)}] = [\n{''.join(texts)}];\n"


def bits(languages: Iterable[str]) -> list[int]:
    """Returns words with one bit for each text from `aa` to `zzz`. The first text has the lowest bit of the first word."""
    words = [0] * 286
    for text in languages:
        index = letter_number(text) - letter_number("aa")
        words[index // 64] |= 1 << index % 64
    return words


# ---- lists of specs/


def codes(texts: Iterable[str]) -> str:
    return f"codes \"{' '.join(texts)}\""


def joined(name: str, doc: str, kind: str, read: str, literals: Iterable[str]) -> str:
    """Returns a list that is read from several literals, since a single literal would exceed the prover's step limit."""
    texts = "\n    ∷ ".join(literals)
    return f"-- {doc}\nunfoldable pub {name} : List {kind}\n{name} =\n    flat_map {read}\n    ({texts}\n    ∷ [])\n"


def word_list(name: str, doc: str, kind: str, read: str, rows: list, size: int) -> str:
    """Returns a list of words, with so many rows in each literal."""
    texts = [" ".join(row) for row in rows]
    return joined(name, doc, kind, read, (codes(texts[at:at + size]) for at in range(0, len(texts), size)))
