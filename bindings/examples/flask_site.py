"""A site with pages in five languages, by Flask: flask --app flask_site run

    curl 'localhost:5000/?lang=sr'; curl -H 'Accept-Language: ger-CH, fr;q=0.5' localhost:5000

The language is the user's choice (?lang=, kept in a cookie), or else the best language for the browser's header.
"""
from __future__ import annotations

from flask import Flask, Response, make_response, request
from langtag import Site, Tag, autonym, describe
from markupsafe import escape

PAGES = {"en": "Hello", "de": "Guten Tag", "sr-Latn": "Dobar dan", "zh-Hant": "你好", "ar": "مرحبا"}
SITE = Site(PAGES)  # what the choice needs of each tag is computed once
SAME = 16  # from this distance on, a tag is of another language

app = Flask(__name__)


def picked() -> str | None:
    """Returns the language that the user picked. A language that is only near the picked one does not count: ?lang=tlh is not
    English."""
    for text in (request.args.get("lang"), request.cookies.get("lang")):
        match = SITE.match_for_header(text)
        if match and match.distance < SAME:
            return match.tag
    return None


def direction(tag: str) -> str:
    return "rtl" if Tag(tag).is_right_to_left else "ltr"


def menu(page: str) -> str:
    """Returns the menu of languages, each by its name in itself. The language of the page comes first."""
    tags = [page, *(tag for tag in PAGES if tag != page)]
    names = {tag: escape(autonym(tag) or describe(tag)) for tag in tags}  # a name may contain &
    return " ".join(f'<a href="?lang={tag}" lang="{tag}" dir="{direction(tag)}">{name}</a>' for tag, name in names.items())


@app.get("/")
def page() -> Response:
    wish, match = picked(), SITE.match_for_header(request.headers.get("Accept-Language", "")[:1000])
    tag = wish or (match.tag if match else "en")
    response = make_response(f'<html lang="{tag}" dir="{direction(tag)}"><p>{PAGES[tag]}<p>{menu(tag)}</html>\n')
    response.headers["Content-Language"] = tag
    response.vary.update(("Accept-Language", "Cookie"))
    if wish:
        response.set_cookie("lang", tag)
    return response
