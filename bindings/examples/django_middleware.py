"""Chooses the language of a Django site by the distances of CLDR. Django's own choice shortens a tag and has a short list of fallbacks. So
it finds `zh-hant` for `zh-TW`, but not `de` for `gsw`, or `da` for `nb`. In the settings, name this middleware before Django's:

    MIDDLEWARE = [.., "mysite.django_middleware.best_language", "django.middleware.locale.LocaleMiddleware", ..]

It replaces the browser's header by the best code of settings.LANGUAGES. So LocaleMiddleware does the rest: the language of the URL and the
cookie still count more, and the response gets `Content-Language` and `Vary`.
"""
from __future__ import annotations

from django.conf import settings
from langtag import Site


def best_language(get_response):
    site = Site([code for code, _ in settings.LANGUAGES])

    def middleware(request):
        best = site.best_for_header(request.META.get("HTTP_ACCEPT_LANGUAGE", "")[:1000], settings.LANGUAGE_CODE)
        request.META["HTTP_ACCEPT_LANGUAGE"] = best
        return get_response(request)

    return middleware
