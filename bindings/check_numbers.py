"""Finds where numbers that stand in several files differ: the version, the number of the ABI, and the indices of the grandfathered
tags. The meaning of the numbers is not compared, since the tests of each language check its constants with the library."""
from __future__ import annotations

import pathlib
import re

# Where the version and the ABI number are: a file, and the text around the number.
VERSIONS = [
    ("rust/Cargo.toml", r'^version = "([^"]+)"'),
    ("rust/c/Cargo.toml", r'^version = "([^"]+)"'),
    ("bindings/python/pyproject.toml", r'^version = "([^"]+)"'),
    ("bindings/python/langtag/__init__.py", r'^__version__ = "([^"]+)"'),
    ("bindings/js/package.json", r'^  "version": "([^"]+)"'),
]
NUMBERS = [
    ("bindings/c/Makefile", r"\.so\.([0-9]+)"), ("bindings/c/langtag_verified.map", r"LANGTAG_VERIFIED_([0-9]+) "),
]

def wrong_numbers(root: pathlib.Path) -> list[str]:
    """Returns where a number of the header differs from the table, or a number of another file from the header."""
    source = (root / "bindings/include/langtag.h").read_text()
    comment = re.search(r"order of RFC 5646 section 2\.1, or(.*?)\*/", source, flags=re.S)
    said = sorted((int(number), tag) for number, tag in re.findall(r" (\d+) ([a-z]+-[\w-]+)", comment[1] if comment else ""))
    table = (root / "vectors/table.txt").read_text()
    wanted = [(int(number), tag) for tag, number in re.findall(r"^grandfathered \| (\S+) \| (\d+)", table, flags=re.M)][:26]
    found = [] if said == wanted else [f"grandfathered tags: the header has {sorted(set(said) ^ set(wanted))}"]
    if "#define LANGTAG_PURE __attribute__((pure, warn_unused_result))\n" not in source:
        found.append("LANGTAG_PURE: the header's word is not pure")
    for name, places in (("LANGTAG_VERSION", VERSIONS), ("LANGTAG_ABI_VERSION", NUMBERS)):
        number = re.search(rf'#define {name} "?([\w.-]+)', source)
        for file, around in places:
            others = set(re.findall(around, (root / file).read_text(), flags=re.M))
            if not number or others != {number[1]}:
                found.append(f"{name}: {file} has {sorted(others)}, and the header {number[1] if number else 'none'}")
    return found
