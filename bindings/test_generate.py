#!/usr/bin/env python3
"""Tests that generate.py --check finds differences, which are planted one by one in a copy of the files."""
import contextlib
import io
import pathlib
import shutil
import tempfile
import unittest

import calls_page
import check_numbers
import generate
import interface
import sql

ROOT = pathlib.Path(__file__).resolve().parent.parent
HEADER, TEMPLATE, MODULE = generate.HEADER, interface.TEMPLATE, "bindings/python/langtag/__init__.py"
CRATE = "crates/langtag_c/src"
FILES = {HEADER, TEMPLATE, MODULE, "vectors/table.txt", *generate.FILES, *generate.REFERENCES, *sql.FILES, sql.WRITTEN, *calls_page.FILES, *(name for name, _ in check_numbers.VERSIONS + check_numbers.NUMBERS)}

# A file, a text in it, the text that replaces it, and what the message has to name.
PLANTED = [
    (HEADER, "size_t langtag_viable_len(", "uint32_t langtag_viable_len(", HEADER),
    (TEMPLATE, "@span ", "@", "span"),
    (TEMPLATE, "@grandfathered", "@grandfatherd", "grandfatherd"),
    (HEADER, "__attribute__((pure,", "__attribute__((const,", "LANGTAG_PURE"),
    (HEADER, "0 en-GB-oed    1 i-ami ", "1 en-GB-oed    0 i-ami ", "grandfathered"),
    (HEADER, "LANGTAG_ABI_VERSION 1", "LANGTAG_ABI_VERSION 2", "LANGTAG_ABI_VERSION"),
    ("bindings/c/Makefile", "soname,$(NAME).so.1", "soname,$(NAME).so.2", "Makefile"),
    ("rust/Cargo.toml", 'version = "0.2.0-dev"', 'version = "0.1.1"', "Cargo.toml"),
    ("rust/c/Cargo.toml", 'version = "0.2.0-dev"', 'version = "0.1.1"', "rust/c/Cargo.toml"),
    (MODULE, '__version__ = "0.2.0-dev"', '__version__ = "0.2.0"', "LANGTAG_VERSION"),
    (CRATE, "fn langtag_eq(a: &[u8], b: &[u8])", "fn langtag_eq(b: &[u8], a: &[u8])", HEADER),
    (CRATE, "pub singleton: Span", "pub singletons: Span", HEADER),
    # The contract says what is written: exports.rs follows it.
    (CRATE, "ensures nothing { result ≡ false → language.new ≡ language.old }", "", "exports.rs"),
    *((name, "distance", "distances", name) for name in [*generate.FILES, sql.WRITTEN]),
    (calls_page.SOURCE, "langtag_viable_len, ", "", "no row with langtag_viable_len"),
    (calls_page.SOURCE, "canParse", "canRead", "JavaScript has no canRead"),
    *((calls_page.SOURCE, f", {name}", "", f"no row with {name} of {language}") for name, language in (
        ("suppress_script", "Rust"), ("for_each_subtag", "C++"), ("extended_language", "Python"), ("extendedLanguages", "JavaScript"), ("extlang", "PostgreSQL"))),
    (calls_page.SOURCE, "langtag_group_best_for_header", "-", "no row with langtag_group_best_for_header of SQLite"),
    (calls_page.SOURCE, "try_langtag", "btequalimage", "PostgreSQL has no btequalimage"),
    (calls_page.PAGE, "hash a tag", "hash a task", calls_page.PAGE),
]


def plant(path: pathlib.Path, old: str, new: str) -> None:
    files = sorted(path.rglob("*.r[st]")) if path.is_dir() else [path]
    holders = [file for file in files if old in file.read_text()]
    if len(holders) != 1:
        raise ValueError(f"{old!r} stands in {len(holders)} files of {path}")
    holders[0].write_text(holders[0].read_text().replace(old, new, 1))


def outcome(root: pathlib.Path) -> "tuple[int, str]":
    said = io.StringIO()
    with contextlib.redirect_stdout(said):
        return generate.main(root, True), said.getvalue()


class Planted(unittest.TestCase):
    def test_each_is_seen(self):
        for where, old, new, named in PLANTED:
            with self.subTest(where=where, new=new), tempfile.TemporaryDirectory() as folder:
                copy = pathlib.Path(folder)
                for name in FILES:
                    (copy / name).parent.mkdir(parents=True, exist_ok=True)
                    shutil.copy(ROOT / name, copy / name)
                shutil.copytree(ROOT / CRATE, copy / CRATE)
                plant(copy / where, old, new)
                status, said = outcome(copy)
                self.assertEqual(status, 1)
                self.assertIn(named, said)

    def test_none_is_there(self):
        status, said = outcome(ROOT)
        self.assertEqual(status, 0, said)


if __name__ == "__main__":
    unittest.main()
