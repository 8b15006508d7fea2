"""Writes docs/CALLS.md from bindings/calls.txt: a row for a task, and a column for a language. A name is linked to the first section of the
language's page that shows it in code, or else names it, if there is one. The pages of SQL have each name themselves."""
from __future__ import annotations

import ast
import pathlib
import re
from typing import Iterator, NamedTuple

from interface import Interface

SOURCE, PAGE = "bindings/calls.txt", "docs/CALLS.md"


class Language(NamedTuple):
    """A language: its name, its page, and the files in which every name has to be."""

    name: str
    page: str
    names: str


LANGUAGES = [
    Language("Rust", "rust/README.md", "rust/api.txt"),
    Language("C", "docs/C.md", "bindings/include/langtag.h"),
    Language("C++", "docs/C.md", "bindings/include/langtag.hpp bindings/include/langtag.h bindings/include/langtag_names.hpp"),
    Language("Python", "docs/PYTHON.md", "bindings/python/langtag/__init__.py bindings/python/langtag/_native.pyi"),
    Language("JavaScript", "docs/JAVASCRIPT.md", "bindings/js/index.d.ts"),
    Language("PostgreSQL", "docs/POSTGRESQL.md", "bindings/postgresql/langtag.sql"),
    Language("SQLite", "docs/SQLITE.md", "bindings/sqlite/sqlite_langtag.c"),
]
# The tables of the page: their columns, and where every call is documented. A table of all columns would not fit into a page.
TABLES = [
    (0, 3, "Every call is documented: for Rust by `cargo doc --open`, for C in [langtag.h](../bindings/include/langtag.h), and for C++ in\n[langtag.hpp](../bindings/include/langtag.hpp)."),
    (3, 5, "Every call is documented: for Python by `help(langtag)`, and for JavaScript in [index.d.ts](../bindings/js/index.d.ts)."),
]
OF_THE_LANGUAGE = {"==", "<", "=", "Hash", "hash", "std::hash", "to_ascii_lowercase", "lower", "lower(tag::text)", "COLLATE langtag"}  # what the language itself has
# Members that each type has, or that belong to the result of another call, and what only the language's own machinery calls.
OF_EACH_TYPE = set("""UND as_bytes as_str constructor eq_str from_static is_empty len length new parse text to_owned toJSON toString try_new try_to_owned""".split())
OF_RESULTS = {"Rust": "FORMLESS_DISTANCE", "C++": "find matched quoted size text_of unless_empty view written_by", "Python": "BestMatch Error Kind Transform WeightedRange"}
# The types whose members are calls.
TYPES = {"Rust": "LangTag LangTagBuf LanguageRange AcceptLanguage choice::Site", "C++": "tag owned_tag range site accept_language",
         "Python": "Tag Range AcceptLanguage Site", "JavaScript": "LanguageTag LanguageRange AcceptLanguage Site"}
FILES = {SOURCE, PAGE, *(name for language in LANGUAGES for names in language[1:] for name in names.split())}

HEAD = """\
# Calls

A link leads to the section of the language's page that shows the call. `-` means that the language has no such call. The pages of
[PostgreSQL](POSTGRESQL.md#types-and-functions) and [SQLite](SQLITE.md#functions) list every function.
"""


def relative(page: str) -> str:
    """Returns the path of a page, as a link on a page of docs/ has it."""
    return page.removeprefix("docs/") if page.startswith("docs/") else f"../{page}"


def rows(root: pathlib.Path) -> list[list[str]]:
    lines = (root / SOURCE).read_text(encoding="utf-8").splitlines()
    return [line.split(" | ") for line in lines if line and not line.startswith("#")]


def names_in(cell: str) -> list[str]:
    return [] if cell == "-" else cell.split(", ")


def whole(word: str) -> str:
    """Returns a regular expression for a word."""
    return rf"(?<!\w){re.escape(word)}(?!\w)"


def pattern(name: str) -> str:
    """Returns a regular expression for the last word of a name, such as distance of choice::distance."""
    return whole(name.rpartition("::")[2])


def shown_in(block: str) -> str:
    """Returns the code of a fenced block without its strings, comments, imports and the output of Python's sessions."""
    session = re.findall(r"(?m)^(?:>>>|\.\.\.) .*", block)
    block = "\n".join(session) or block
    block = re.sub(r'"[^"\n]*"|\'[^\'\n]*\'|/\*.*?\*/|(?://|-- |# ).*', " ", block)
    return re.sub(r"(?m)^.*\bimport\b.*|^use .*|^```.*", "", block)


class Section(NamedTuple):
    """A section of a page: its anchor, the code that it shows, and the names that its text has in backticks."""

    anchor: str
    shown: str
    named: str


def sections(text: str) -> list[Section]:
    """Returns the sections of a page, without those that install something."""
    found = []
    for part in re.split(r"(?m)^(?=## )", text)[1:]:
        heading, _, body = part.partition("\n")
        anchor = re.sub(r"[^\w -]", "", heading[3:].lower()).replace(" ", "-")
        blocks = re.findall(r"(?ms)^```(?!sh|console).*?^```", body)
        named = re.findall(r"`[^`\n]+`", re.sub(r"(?ms)^```.*?^```", "", body))
        found.append(Section(anchor, "\n".join(map(shown_in, blocks)), "\n".join(named)))
    return [it for it in found if it.anchor != "install"]


def calls_in(path: pathlib.Path) -> str:
    """Returns the text in which the names of a language's calls are: of a file for SQL, only what its statements create."""
    text = path.read_text(encoding="utf-8")
    return "\n".join(re.findall(r"(?m)^CREATE \w+ ([^\s(;]+)", text)) if path.name.endswith(".sql") else text


class Linker:
    """Finds where the names of a language are."""

    def __init__(self, root: pathlib.Path, language: Language):
        self.language, self.root = language, root
        self.sections = sections((root / language.page).read_text(encoding="utf-8"))
        self.known = "".join(calls_in(root / name) for name in language.names.split())

    def spellings(self, name: str) -> list[str]:
        """Returns what a page may write for a name, the most precise first: `langtag::refused` for refused, and `site.refused` for site::refused."""
        owner, _, last = name.rpartition("::")
        return [f"{owner}.{last}"] if owner in TYPES.get(self.language.name, "").split() else [f"langtag::{last}", last]

    def linked(self, name: str) -> str:
        """Returns a name with a link to the first section of the language's page that shows it in code, or else names it."""
        for code in ("shown", "named") if len(name) > 2 else ():
            for spelling in self.spellings(name):
                for section in self.sections:
                    if re.search(whole(spelling), getattr(section, code)):
                        return f"[`{name}`]({relative(self.language.page)}#{section.anchor})"
        return f"`{name}`"

    def cell(self, text: str) -> str:
        return ", ".join(map(self.linked, names_in(text))) or "-"

    def unknown(self, text: str) -> list[str]:
        return [name for name in names_in(text) if name not in OF_THE_LANGUAGE and not re.search(pattern(name), self.known)]


def public_in_rust(text: str) -> Iterator[str]:
    """Yields the functions of modules and the members of the types, from the list of the interface."""
    for line in text.splitlines()[1:]:
        heads, _, names = line.partition(": ")
        if {*heads.split()} & {*TYPES["Rust"].split()} or re.search(r" langtag::(?!scan)\w+$", heads):
            yield from (it for it in names.split() if not it.startswith(("as_", "is_normal", "is_private", "try_")) and (it.islower() or "_" not in it and it.isupper()))


def public_in_cpp(text: str) -> Iterator[str]:
    """Yields the functions, and the types with their members that are not private."""
    text = re.sub(r"(?ms)^private:$.*?(?=^\};)", "", text)
    yield from re.findall(r"(?m)^(?:inline )?[\w:<>]+(?: [\w:<>]+)* (\w+)\(", text)
    for name in TYPES["C++"].split():
        body = re.search(rf"(?ms)^class {name} \{{$(.*?)^\}};", text)
        yield from [name, *re.findall(r"(?m)^    (?:[\w:<>,&*]+ )+&?(\w+)\(", body[1] if body else "")]


def public_in_python(text: str) -> Iterator[str]:
    """Yields the names of `__all__` and the members of the types."""
    for item in ast.parse(text).body:
        if isinstance(item, ast.Assign) and getattr(item.targets[0], "id", "") == "__all__":
            yield from ast.literal_eval(item.value)
        if isinstance(item, ast.ClassDef) and item.name in TYPES["Python"].split():
            names = (getattr(it, "name", "") for it in item.body)
            yield from (it for it in names if it and not it.startswith("_"))


def public_in_javascript(text: str) -> Iterator[str]:
    """Yields what the module exports, and the members of its types."""
    yield from re.findall(r"(?m)^export (?:declare )?(?:function|class|const) (\w+)", text)
    for name, body in re.findall(r"(?ms)^export declare class (\w+)[^{]*\{$(.*?)^\}", text):
        if name in TYPES["JavaScript"].split():
            yield from re.findall(r"(?m)^ {4}(?:static |readonly |get )*([a-z]\w*)[(<:?]", body)


def public_in_sql(text: str) -> Iterator[str]:
    """Yields the functions that statements create, without those of types, operators and indexes."""
    for name in re.findall(r"(?m)^CREATE FUNCTION (\w+)\(", text):
        if not re.search(r"_(?:in|out|recv|send|eq|ne|lt|le|gt|ge|cmp|lower|upper|\w*support|hash|hash_extended|larger|smaller|part)$", name) or name == "langtag_hash":
            yield name


# How the public names of a language are found in its files.
PUBLIC = {
    "Rust": public_in_rust, "C++": public_in_cpp, "Python": public_in_python, "JavaScript": public_in_javascript, "PostgreSQL": public_in_sql,
    "SQLite": lambda text: re.findall(r'"(langtag_\w+)"', text),
}


def lacking(root: pathlib.Path, all_rows: list[list[str]]) -> list[str]:
    """Returns the public calls that are in no row of their language."""
    found = []
    for at, language in enumerate(LANGUAGES, 1):
        if language.name in PUBLIC:
            text = (root / language.names.split()[0]).read_text(encoding="utf-8")
            named = {name.rpartition("::")[2] for row in all_rows for name in names_in(row[at])} | OF_EACH_TYPE | {*OF_RESULTS.get(language.name, "").split()}
            found += [f"{SOURCE} has no row with {name} of {language.name}" for name in sorted({*PUBLIC[language.name](text)} - named)]
    return found


def table(head: list[str], lines: list[list[str]]) -> str:
    return "".join(" | ".join(line) + "\n" for line in [head, ["---|" * (len(head) - 1) + "---"], *lines])


def pages(root: pathlib.Path) -> dict[str, str]:
    """Returns the text of docs/CALLS.md."""
    all_rows, linkers = rows(root), [Linker(root, language) for language in LANGUAGES]
    heads = [f"[{language.name}]({relative(language.page)})" for language in LANGUAGES]
    lines = [[row[0], *(linker.cell(cell) for linker, cell in zip(linkers, row[1:]))] for row in all_rows]
    parts = [HEAD]
    for begin, end, documented in TABLES:
        names = [language.name for language in LANGUAGES[begin:end]]
        has = [[line[0], *line[begin + 1 : end + 1]] for line in lines if set(line[begin + 1 : end + 1]) != {"-"}]
        parts.append(f"## {', '.join(names[:-1])} and {names[-1]}\n\n{documented}\n\n{table(['to', *heads[begin:end]], has)}")
    return {PAGE: "\n".join(parts)}


def faults(it: Interface, root: pathlib.Path) -> list[str]:
    """Returns what is wrong in calls.txt: names that are nowhere declared, and functions of C that are in no row."""
    all_rows = rows(root)
    found = [f"{SOURCE}: {row[0]} has {len(row) - 1} columns" for row in all_rows if len(row) != len(LANGUAGES) + 1]
    for at, language in enumerate(LANGUAGES, 1):
        linker = Linker(root, language)
        found += [f"{SOURCE}: {language.name} has no {name}" for row in all_rows for name in linker.unknown(row[at])]
        if language.names.startswith(("bindings/postgresql/", "bindings/sqlite/")):
            page = (root / language.page).read_text(encoding="utf-8")
            names = {name for row in all_rows for name in names_in(row[at])} - OF_THE_LANGUAGE
            found += [f"{language.page} lacks {name}" for name in sorted(names) if not re.search(pattern(name), page)]
    named = {name for row in all_rows for name in names_in(row[2])}
    found += [f"{SOURCE} has no row with {function.name}" for function in it.functions if function.name not in named]
    return found + lacking(root, all_rows)
