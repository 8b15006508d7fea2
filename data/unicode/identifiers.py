"""The aliases of language identifiers: languages with variants, sign languages, variants, scripts, and regions with several
replacements. Aliases that break a premise of the crate are refused."""
from __future__ import annotations

import re

import common
from common import Refused

LANGUAGE, SCRIPT, REGION, VARIANT = r"[a-z]{2,3}|[a-z]{5,8}", r"[a-z]{4}", r"[a-z]{2}|[0-9]{3}", r"[a-z0-9]{5,8}|[0-9][a-z0-9]{3}"
IDENTIFIER = re.compile(f"({LANGUAGE})(?:-({SCRIPT}))?(?:-({REGION}))?((?:-(?:{VARIANT}))*)")

# Where CLDR has another sign language than IANA's registry, IANA's is taken: CLDR makes Norwegian Sign Language Nigerian.
BETTER = [("sgn-no", "nsi", "nsl")]


def fields(text: str) -> tuple[str, str, str, tuple[str, ...]] | None:
    """Returns language, script, region and variants of a language identifier in lowercase; `und` and absent fields are empty."""
    found = IDENTIFIER.fullmatch(text)
    if not found:
        return None
    language, script, region, variants = found.groups()
    return "" if language == "und" else language, script or "", region or "", tuple(variants.split("-")[1:])


class Identifiers:
    """The aliases of language identifiers, by the steps of the form: see specs/LocaleForm.antt of langtag_locale."""

    def __init__(self, rows, languages, regions, registry) -> None:
        self.variant_languages, self.sign_languages, self.variant_pairs = [], [], []
        self.dropped_variants, self.variant_aliases, self.variant_regions, self.script_aliases = [], [], [], []
        self.languages, self.registry = languages, registry
        for old, new in ([text.lower() for text in row] for row in rows):
            self.read(old, next((better for tag, _, better in BETTER if tag == old), new))
        self.rows = {old.lower(): new.lower() for old, new in rows}
        self.regions = {old.lower(): new[0].lower() for old, *new in regions if len(new) == 1}
        self.several = [(old.lower(), "-".join(new).lower()) for old, *new in regions if len(new) > 1]
        self.test()

    def read(self, old: str, new: str) -> None:
        """Puts an alias into the list of its step. An alias that belongs to no step is refused."""
        left, right = fields(old), fields(new)
        if not left or not right:
            raise Refused(f"language-alias.txt: a language identifier: {old} {new}")
        (language, script, region, variants), (to_language, to_script, to_region, to_variants) = left, right
        is_language = right == (to_language, "", "", ()) and to_language
        if language and len(variants) == 1 and not script + region and is_language:
            self.variant_languages.append((language, variants[0], to_language))
        elif language == "sgn" and region and not script and not variants and is_language:
            self.sign_languages.append((region, to_language))
        elif not language + region and script and not variants and right == ("", to_script, "", ()):
            self.script_aliases.append((script, to_script))
        elif not language + script + region and len(variants) == 2 and right == ("", "", "", to_variants) and len(to_variants) == 1:
            self.variant_pairs.append((*variants, to_variants[0]))
        elif not language + script + region and len(variants) == 1 and right == ("", "", to_region, ()):
            self.dropped_variants.append(variants[0])
            self.variant_regions += [(variants[0], to_region)] if to_region else []
        elif not language + script + region and len(variants) == 1 and right == ("", "", "", to_variants) and len(to_variants) == 1:
            self.variant_aliases.append((variants[0], to_variants[0]))
        else:
            raise Refused(f"language-alias.txt: an alias of a known kind: {old} {new}")

    def test(self) -> None:
        """Tests the premises under which seven steps, each done once, are the loop of UTS #35."""
        def each(premise, holds, among):
            common.each("language-alias.txt", premise, holds, among)

        named = set(self.dropped_variants) | {old for old, _ in self.variant_aliases}
        variants = [row[1] for row in self.variant_languages]
        new_languages = [(new,) for *_, new in self.variant_languages + self.sign_languages] + [(new,) for new, *_ in self.languages.values()]
        each("no new language is an alias", lambda row: row[0] not in self.languages, new_languages)
        each("no language with a variant is an alias", lambda row: row[0] not in self.languages, self.variant_languages)
        each("a variant stands with one language", lambda row: variants.count(row[1]) == 1, self.variant_languages)
        each("a new language has no variant of its own", lambda row: row[2] == row[0] or row[2] not in [it[0] for it in self.variant_languages], self.variant_languages)
        each("no new variant is an alias", lambda row: row[-1] not in named, self.variant_aliases + self.variant_pairs)
        each("the second variant of a pair alone has the same alias", lambda row: row[1:] in self.variant_aliases, self.variant_pairs)
        each("the first variant of a pair alone has no alias", lambda row: row[0] not in named, self.variant_pairs)
        replaced = set(self.regions) | {old for old, _ in self.several}
        each("no new region is an alias", lambda row: not replaced & set(row[1].split("-")), self.variant_regions + self.several + list(self.regions.items()))
        each("no new script is an alias", lambda row: row[1] not in [old for old, _ in self.script_aliases], self.script_aliases)
        each("CLDR has the row that IANA's registry betters", lambda row: self.rows.get(row[0]) == row[1], BETTER)
        self.test_registry()

    def differing(self) -> list[tuple[str, str]]:
        """Returns the tags and subtags of the registry that do not have the form of their Preferred-Value, each with that value."""
        return [(old, new) for old, new in self.registry if fields(old) and fields(new) and self.form(fields(old)) != self.form(fields(new))]

    def is_replaced(self, tag: str) -> bool:
        """Returns whether the form of a language identifier is another identifier."""
        *parts, variants = fields(tag)
        return self.form(fields(tag)) != (*parts, sorted(variants))

    def ahead_of_cldr(self) -> list[tuple[str, str]]:
        """Returns the tags and subtags of the registry with a Preferred-Value that CLDR does not replace yet, each with that value."""
        return [(old, new) for old, new in self.differing() if not self.is_replaced(old)]

    def test_registry(self) -> None:
        """Tests that a canonical form (RFC 5646 section 4.5) has the form of its tag, so that the forms of both are one. CLDR follows
        the registry later, so a tag that CLDR does not replace at all is no contradiction."""
        for old, new in self.differing():
            if self.is_replaced(old):
                raise Refused(f"language-alias.txt: the form of a tag of the registry is the form of its Preferred-Value: {old} {new}")

    def form(self, identifier):
        """Returns language, script, region and variants of the form, in which a region of several keeps them all."""
        language, script, region, variants = identifier
        new = self.languages.get(language, (language, "", ""))
        language, script, region = new[0], script or new[1], region or new[2]
        kept = [v for v in variants if (language, v) not in [row[:2] for row in self.variant_languages]]
        for old, variant, to in self.variant_languages:
            language = to if old == language and variant in variants else language
        region = region or next((to for variant, to in self.variant_regions if variant in variants), "")
        for _ in range(2):
            if language == "sgn" and region in dict(self.sign_languages):
                language, region = dict(self.sign_languages)[region], ""
            region = self.regions.get(region, region)
        kept = [dict(self.variant_aliases).get(v, v) for v in kept if v not in self.dropped_variants]
        return language, dict(self.script_aliases).get(script, script), region, sorted(kept)
