"""The README of a package, which is a page of docs/."""
from __future__ import annotations

import pathlib
import re

ROOT = pathlib.Path(__file__).resolve().parent.parent
DOCS = ROOT / "docs"

# The page of each package, and what stands below it.
PAGES = {"c": "C.md", "python": "PYTHON.md", "js": "JAVASCRIPT.md", "postgresql": "POSTGRESQL.md", "sqlite": "SQLITE.md"}
LICENCES = """
## License

Apache License 2.0 or MIT license, at your option. The CLDR data is under Unicode's license.
"""


def named(link: re.Match[str]) -> str:
    """Returns the text that replaces a link to a file that the package does not have."""
    path = link[2].partition("#")[0]
    return link[0] if path.startswith("http") else f"{link[1]} (`{(DOCS / path).resolve().relative_to(ROOT)}` in the repository)"


def without_links(page: str) -> str:
    return re.sub(r"\[([^\]]*)\]\(([^)#]+(?:#[\w-]*)?)\)", named, page)


def readme(package: str) -> str:
    return without_links((DOCS / PAGES[package]).read_text(encoding="utf-8")) + LICENCES
