"""One wish over several lists, for the page, the audio and the subtitles of a film: python3 film.py HEADER [LANGUAGE..]

    python3 film.py 'en-GB,en;q=0.9' nap it

The languages are the user's own, in order of preference, and come before those of the header. The language of the page comes first, so that
the audio and the subtitles go with the page.
"""
from __future__ import annotations

import sys
from typing import Iterable

from langtag import best_for_header

PAGES, AUDIO, SUBTITLES = ["en", "it", "zh-Hans", "zh-Hant"], ["jpn", "eng", "ger"], ["en", "de", "it", "zh-Hant"]


def chosen(header: str, languages: Iterable[str] = ()) -> tuple[str, str, str | None]:
    """Returns the language of the page, of the audio, and of the subtitles. The page is in English and the audio in Japanese, and there are
    no subtitles, if nothing is suitable."""
    wish = ",".join([*languages, header[:1000]])
    page = best_for_header(wish, PAGES)
    if page is not None:  # a page that nobody asked for is no wish
        wish = f"{page},{wish}"
    return page or "en", best_for_header(wish, AUDIO, "jpn"), best_for_header(wish, SUBTITLES)


if __name__ == "__main__":
    print(*chosen(sys.argv[1], sys.argv[2:]))
