"""gettext's messages in the order of the parents of a locale in Unicode's CLDR: python3 gettext_catalogue.py DOMAIN FOLDER LOCALE MESSAGE

`gettext.find` shortens each name itself before it tries the next, so for `zh_TW` it finds `zh`, which is Simplified, before `zh_Hant`. So
this program opens the files one by one.
"""
from __future__ import annotations

import gettext
import pathlib
import sys

import langtag


def names(tag: langtag.Tag) -> dict[str, None]:
    """Returns the names that the folder of a tag's messages may have: `sr_Latn` and `sr@latin` for `sr-Latn`."""
    return dict.fromkeys(filter(None, (str(tag).replace("-", "_"), tag.to_posix())))


def translations(domain: str, folder: pathlib.Path, locale: str) -> gettext.NullTranslations:
    """Returns the messages of the locale, which fall back to those of its parents, the nearest first."""
    try:
        tag = langtag.Tag.from_posix(locale)
    except langtag.InvalidLocale:  # C, POSIX, C.UTF-8: the messages of the program itself
        return gettext.NullTranslations()
    form = tag.locale_form() or tag
    chain = dict.fromkeys([*tag.parents, *form.parents, *form.maximized().parents])  # iw_IL: .. he; zh_CN: .. zh-Hans
    files = [folder / name / "LC_MESSAGES" / f"{domain}.mo" for member in chain for name in names(member)]
    found: gettext.NullTranslations | None = None
    for path in filter(pathlib.Path.is_file, files):
        with path.open("rb") as file:
            messages = gettext.GNUTranslations(file)
        if found is None:
            found = messages
        else:
            found.add_fallback(messages)
    return found or gettext.NullTranslations()


def main() -> None:
    domain, folder, locale, message = sys.argv[1:]
    print(translations(domain, pathlib.Path(folder), locale).gettext(message))


if __name__ == "__main__":
    main()
