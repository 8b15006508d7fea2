"""The links to a page in the languages of a site, for search engines: python3 hreflang.py ADDRESS TAG..

    python3 hreflang.py 'https://example.org/{}/help' en iw zh-Hant

Each page has all the links, also the link to itself. The addresses have the tags of the site, and `hreflang` has their canonical forms. The
link `x-default` leads to the page that chooses a language, whose address has none.
"""
from __future__ import annotations

import html
import sys
from typing import Iterable

from langtag import Tag


def canonical(text: str) -> str:
    """Returns a tag of the site in canonical form. An unregistered subtag is an error, such as UK in en-UK, which has to be GB."""
    tag = Tag(text)
    if tag.invalid_subtag is not None:
        raise ValueError(f"{text}: {tag.invalid_subtag}")
    return str(tag.canonical())


def links(address: str, tags: Iterable[str]) -> list[str]:
    """Returns the links to a page, whose address has {} in place of the tag."""
    targets = {canonical(tag): address.format(tag) for tag in tags}
    targets["x-default"] = address.replace("/{}", "")
    return [f'<link rel="alternate" hreflang="{tag}" href="{html.escape(target)}">' for tag, target in targets.items()]


if __name__ == "__main__":
    print(*links(sys.argv[1], sys.argv[2:]), sep="\n")
