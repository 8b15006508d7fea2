"""Tests the examples of sites and of a film.
Without Flask or Django, its test is left out, and the output says so. The middleware for Django is also called with its settings and with a
request that has only headers, so that much is tested without Django."""
import importlib
import re
import sys
import types
import unittest
from unittest import mock

import film
import hreflang

try:
    import flask_site
except ImportError:
    flask_site = None
try:
    import django
except ImportError:
    django = None

# The header, the user's own languages, and the languages of the page, the audio and the subtitles.
FILMS = [
    ("zh-TW,zh;q=0.9,en;q=0.8", "", ("zh-Hant", "eng", "zh-Hant")), ("en-GB,en;q=0.9", "nap it", ("it", "eng", "it")), ("nap", "", ("en", "jpn", None)),
    ("gsw,it;q=0.5", "", ("it", "ger", "it")), ("de_CH", "", ("en", "ger", "de")), ("de,en;q=0", "", ("en", "ger", "de")), ("", "", ("en", "jpn", None)),
    ("en-GB," + "x" * 1000 + ",de", "", ("en", "eng", "en")),
]

# The language in the URL, the cookie, the header, the language of the page, and whether a cookie keeps it.
PAGES = [
    (None, None, None, "en", False), (None, None, "ger-CH, fr;q=0.5", "de", False), ("sr", None, "de", "sr-Latn", True), ("tlh", None, "de", "de", False),
    ("tlh", "ar", "de", "ar", True), (None, "zh_TW", "de", "zh-Hant", True), ("", "xx", "fi", "en", False), ("de_AT, ar", None, "ar", "de", True),
]


class Sites(unittest.TestCase):
    def test_film(self):
        for header, languages, wanted in FILMS:
            self.assertEqual(film.chosen(header, languages.split()), wanted, header)

    def test_hreflang(self):
        wanted = {"en": "en", "he": "iw", "zh-Hant": "zh-hant", "x-default": None}
        links = [f'<link rel="alternate" hreflang="{tag}" href="https://example.org{f"/{own}" if own else ""}/help?a&amp;b">' for tag, own in wanted.items()]
        self.assertEqual(hreflang.links("https://example.org/{}/help?a&b", ["en", "iw", "zh-hant"]), links)
        for wrong, why in [("en-UK", "en-UK: region UK is not registered: did you mean GB?"), ("de_CH", "invalid character `_`")]:
            with self.assertRaisesRegex(ValueError, re.escape(why)):
                hreflang.links("https://example.org/{}", [wrong])

    @unittest.skipUnless(flask_site, "Flask is not there")
    def test_flask(self):
        for wish, cookie, header, tag, is_kept in PAGES:
            client = flask_site.app.test_client(use_cookies=False)  # `set_cookie` takes other arguments in Werkzeug 2.3 than before
            headers = {"Accept-Language": header, "Cookie": cookie and f"lang={cookie}"}
            headers = {name: value for name, value in headers.items() if value is not None}
            got = client.get("/", query_string={} if wish is None else {"lang": wish}, headers=headers)
            self.assertEqual((got.headers["Content-Language"], got.headers.get("Set-Cookie")), (tag, f"lang={tag}; Path=/" if is_kept else None))
            self.assertIn(f'lang="{tag}" dir="{"rtl" if tag == "ar" else "ltr"}"><p>{flask_site.PAGES[tag]}', got.text)
            self.assertIn(f'<p><a href="?lang={tag}" lang="{tag}"', got.text)  # it comes first in the menu
            self.assertIn('lang="zh-Hant" dir="ltr">繁體中文</a>', got.text)

    def test_django(self):
        settings = types.SimpleNamespace(LANGUAGES=[("en", "English"), ("zh-hant", "繁體中文"), ("de", "Deutsch")], LANGUAGE_CODE="en")
        modules = {"django": types.ModuleType("django"), "django.conf": types.SimpleNamespace(settings=settings)}
        with mock.patch.dict(sys.modules, modules):
            middleware = importlib.import_module("django_middleware").best_language(lambda request: request.META["HTTP_ACCEPT_LANGUAGE"])
        for header, code in [("zh-TW, en;q=0.9", "zh-hant"), ("gsw", "de"), ("de_CH", "de"), ("tlh, *;q=0.1", "en"), ("ja", "en"), ("", "en"), (None, "en")]:
            request = types.SimpleNamespace(META={} if header is None else {"HTTP_ACCEPT_LANGUAGE": header})
            self.assertEqual(middleware(request), code)

    @unittest.skipUnless(django, "Django is not there")
    def test_with_django(self):
        """What Django chooses alone, and with the middleware before its own."""
        from django.conf import settings
        from django.http import HttpResponse
        from django.test import Client, RequestFactory
        from django.urls import path
        from django.utils import translation

        urls = types.ModuleType("urls")
        urls.urlpatterns = [path("", lambda _: HttpResponse(translation.get_language()))]
        settings.configure(
            LANGUAGES=[(code, code) for code in ("en", "zh-hans", "zh-hant", "de", "da", "pt-br")], LANGUAGE_CODE="en", USE_I18N=True, ROOT_URLCONF=urls,
            MIDDLEWARE=["django_middleware.best_language", "django.middleware.locale.LocaleMiddleware"], ALLOWED_HOSTS=["*"])
        django.setup()
        for header, alone, chosen in [("zh-TW", "zh-hant", "zh-hant"), ("gsw", "en", "de"), ("nb", "en", "da"), ("pt-PT", "pt-br", "pt-br"), ("de_CH", "en", "de")]:
            self.assertEqual(translation.get_language_from_request(RequestFactory().get("/", HTTP_ACCEPT_LANGUAGE=header)), alone)
            got = Client().get("/", HTTP_ACCEPT_LANGUAGE=header)
            self.assertEqual((got.content.decode(), got["Content-Language"], got["Vary"]), (chosen, chosen, "Accept-Language"))
