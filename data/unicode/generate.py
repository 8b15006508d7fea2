#!/usr/bin/env python3
"""Writes the tables and the lists of the crates langtag_keyword and langtag_locale from Unicode's CLDR. The aliases of types, of
subdivisions and of language identifiers are in cldr/. The aliases of regions are those of langtag_likely, in ../likely/cldr.
from_cldr.py writes cldr/, and CLDR's own cases as the rows of vectors/cldr.txt. cldr.sha256 has the checksums of both.

IANA's registry may be ahead of CLDR: a tag has a Preferred-Value, and CLDR does not replace that tag yet. --accept writes such tags to
ahead-of-cldr.txt, and names each tag that it adds or takes out.
"""
from __future__ import annotations

import itertools
import pathlib
import re
import sys

sys.path.append(str(pathlib.Path(__file__).resolve().parent.parent))
import common  # noqa: E402
from common import Generator, Refused, cldr_version, files_of, head, in_lines, rows_of, run, table, text_of, word_list  # noqa: E402
from identifiers import Identifiers  # noqa: E402

DATA = "data/unicode/cldr"
CASES = "vectors/cldr.txt"
LANGUAGES, REGIONS = "data/likely/cldr/language-alias.txt", "data/likely/cldr/region-alias.txt"
REGISTRY = "data/registry/language-subtag-registry"
# The tags and subtags of the registry whose Preferred-Value CLDR does not have yet.
AHEAD = "data/unicode/ahead-of-cldr.txt"

SUBTAG = re.compile(r"[a-z0-9]{3,8}")
KEYS = {"u": re.compile(r"[a-z0-9][a-z]"), "t": re.compile(r"[a-z][0-9]")}
# by how many bytes a type may grow, by its key, which the proof of the longest form counts
GROWTH = {"ca": 5, "tz": 4, "d0": 4, "m0": 3}
SUBDIVISION = re.compile(r"[a-z]{2}[a-z0-9]{1,4}|[0-9]{3}[a-z0-9]{1,4}")


def read(name: str) -> list[list[str]]:
    return rows_of(f"{DATA}/{name}")


def version() -> str:
    found = cldr_version([*files_of(DATA), CASES, LANGUAGES, REGIONS])
    if f"\ncldr-version | {found}\n" not in text_of(CASES):
        raise Refused("cldr.txt: the row cldr-version has the version of the data")
    return found


def whole_subdivision(code: str) -> str:
    """Returns a subdivision, or the subdivision that means a whole two-letter region (UTS #35, part 1, Annex C)."""
    return code.lower() + ("zzzz" if len(code) == 2 else "")


class Aliases:
    """The aliases of types by extension, each with its key, and the aliases of subdivisions."""

    def __init__(self) -> None:
        rows = read("type-alias.txt")
        self.types = {x: [(key, old, new) for other, key, old, new in rows if other == x] for x in KEYS}
        self.subdivisions = [(row[0].lower(), whole_subdivision(row[2])) for row in read("subdivision-alias.txt")]
        self.test(rows)

    def test(self, rows: list[list[str]]) -> None:
        def each_type(premise, holds):
            common.each("type-alias.txt", premise, holds, rows)

        def each_subdivision(premise, holds):
            common.each("subdivision-alias.txt", premise, holds, self.subdivisions)

        left = [row[:3] for row in rows]
        each_type("the extension is u or t", lambda row: row[0] in KEYS)
        each_type("a key of its extension", lambda row: KEYS[row[0]].fullmatch(row[1]))
        each_type("types are subtags in lowercase", lambda row: all(SUBTAG.fullmatch(subtag) for text in row[2:] for subtag in text.split("-")))
        each_type("a left side once", lambda row: left.count(row[:3]) == 1)
        each_type("no right side is a left side", lambda row: [*row[:2], row[3]] not in left)
        each_type("rg and sd have subdivisions alone", lambda row: row[1] not in ("rg", "sd"))
        each_type("nothing replaces true", lambda row: row[2] != "true")
        each_type("a right side is longer by what its key allows", lambda row: row[3] == "true" or len(row[3]) <= len(row[2]) + GROWTH.get(row[1], 0))
        codes = [old for old, _ in self.subdivisions]
        each_subdivision("codes in lowercase", lambda row: all(SUBDIVISION.fullmatch(code) for code in row))
        each_subdivision("a left side once", lambda row: codes.count(row[0]) == 1)
        each_subdivision("no right side is a left side", lambda row: row[1] not in codes)
        each_subdivision("a right side is longer by 2 at most", lambda row: len(row[1]) <= len(row[0]) + 2)


def preferred() -> list[tuple[str, str]]:
    """Returns the tags and subtags of IANA's registry that have a Preferred-Value, each as a language identifier, with that value."""
    shapes = {"language": "{}", "region": "und-{}", "variant": "und-{}", "grandfathered": "{}", "redundant": "{}"}
    found = []
    for record in text_of(REGISTRY).split("%%\n"):
        lines = dict(line.split(": ", 1) for line in record.splitlines() if re.match("(Type|Subtag|Tag|Preferred-Value): ", line))
        if lines.get("Type") in shapes and "Preferred-Value" in lines:
            shape = shapes[lines["Type"]]
            found.append((shape.format(lines.get("Subtag") or lines["Tag"]).lower(), shape.format(lines["Preferred-Value"]).lower()))
    return found


def identifiers() -> Identifiers:
    languages = {old: tuple(text.strip("-").lower() for text in new) for old, *new in rows_of(LANGUAGES)}
    return Identifiers(read("language-alias.txt"), languages, rows_of(REGIONS), preferred())


def text_table(name, doc, kind, rows):
    texts = [", ".join(f'"{text}"' for text in row) for row in rows]
    return table(name, doc, kind, (f"({text})" if kind.startswith("(") else text for text in texts))


def key_table(name, doc, rows):
    """Returns a table with a row for each key: the key, and its types."""
    items = []
    for key, types in itertools.groupby(rows, lambda row: row[0]):
        pairs = in_lines([f'("{old}", "{new}")' for _, old, new in types], indent="       ")
        items.append(f'    ("{key}", &[\n{pairs}\n    ]),\n')
    return f"/// {doc}\n#[rattlefmt::skip]\npub(crate) static {name}: [(&str, &[(&str, &str)]); {len(items)}] = [\n{''.join(items)}];\n"


def tables(aliases: Aliases) -> str:
    return "\n".join([
        head_of("//!", "The aliases", ", in tables"),
        key_table("UNICODE_TYPE_ALIASES", "The keys of the extension `u` some of whose types are replaced, each with the old types and the new types.", aliases.types["u"]),
        key_table("TRANSFORM_TYPE_ALIASES", "The keys of the extension `t` some of whose types are replaced, each with the old types and the new types.", aliases.types["t"]),
        text_table("SUBDIVISION_ALIASES", "The subdivisions that are replaced: the old code and the new code.", "(&str, &str)", aliases.subdivisions),
    ])


def head_of(comment, what, form=""):
    return head(comment, f"{what} of Unicode's CLDR {version()}{form}", "unicode")


def head_of_lists(what, names):
    return head_of("--", what) + f"""use Rattle.std.specs.Prelude.{{{names}}}
use Rattle.std.specs.List.{{flat_map}}
use Rattle.langtag_text.specs.Words.{{words}}
use Rattle.langtag_text.specs.Alias.{{Alias, TypeAlias, aliases_of, type_aliases_of}}
"""


def row_list(name, doc, kind, reader, rows):
    return word_list(name, doc, kind, f"(λ text. {reader})", rows, 16)


def lists(aliases: Aliases) -> str:
    return "\n".join([
        head_of_lists("The aliases", "[], ◌∷◌, List, codes"),
        row_list("unicode_type_aliases", "the types of the extension u that are replaced: a key, the old type and the new type", "TypeAlias", TYPE_ALIASES, aliases.types["u"]),
        row_list("transform_type_aliases", "the types of the extension t that are replaced: a key, the old type and the new type", "TypeAlias", TYPE_ALIASES, aliases.types["t"]),
        row_list("subdivision_aliases", "the subdivisions that are replaced: the old code, and the first code that replaces it, with `zzzz` after a code that is a region", "Alias", ALIASES, aliases.subdivisions),
    ])


def rules(identifiers: Identifiers):
    """Returns the aliases of language identifiers: for each list its name, what it has, and its rows."""
    return [
        ("variant_languages", "the languages that change with a variant: the language, the variant and the new language", identifiers.variant_languages),
        ("sign_languages", "the regions after `sgn`, each with its sign language", identifiers.sign_languages),
        ("variant_pairs", "the variants that are replaced together with a second variant: the variant, the second variant, and the new variant", identifiers.variant_pairs),
        ("variant_aliases", "the variants that are replaced: the old variant and the new variant", identifiers.variant_aliases),
        ("dropped_variants", "the variants that are left out", [(variant,) for variant in identifiers.dropped_variants]),
        ("variant_regions", "the variants that stand for a region, each with its region", identifiers.variant_regions),
        ("script_aliases", "the scripts that are replaced: the old script and the new script", identifiers.script_aliases),
        ("region_heirs", "the regions that one of several regions replaces, each with those regions", identifiers.several),
    ]


TYPE_ALIASES, ALIASES = "type_aliases_of (words text)", "aliases_of (words text)"
KINDS = {1: ("&str", "(List ℕ)", "words text"), 2: ("(&str, &str)", "Alias", ALIASES), 3: ("(&str, &str, &str)", "TypeAlias", TYPE_ALIASES)}


def order_number(subtag: str) -> int:
    """Returns the number that langtag_keyword's order_number returns."""
    return int.from_bytes(subtag.encode().ljust(8, b"\0"), "big")


def rule_tables(identifiers: Identifiers) -> str:
    changing = sorted({row[1] for row in identifiers.variant_languages} | {row[0] for row in identifiers.variant_pairs + identifiers.variant_aliases} | set(identifiers.dropped_variants))
    return "\n".join([head_of("//!", "The aliases of language identifiers", ", in tables")] + [
        text_table(name.upper(), f"{doc[0].upper()}{doc[1:]}.", KINDS[len(rows[0])][0], rows) for name, doc, rows in rules(identifiers)
    ] + [
        table("CHANGING_VARIANTS", "The numbers of the variants that are replaced or left out: their bytes, and zeros up to eight bytes.", "u64",
              (f"{order_number(text):#018x}" for text in changing)),
    ])


def rule_lists(identifiers: Identifiers) -> str:
    return "\n".join([head_of_lists("The aliases of language identifiers", "ℕ, [], ◌∷◌, List, codes")] + [
        row_list(name, doc, *KINDS[len(rows[0])][1:], rows) for name, doc, rows in rules(identifiers)
    ])


def ahead(identifiers: Identifiers) -> str:
    """Returns the content of ahead-of-cldr.txt."""
    rows = "".join(f"{old} {new}\n" for old, new in sorted(identifiers.ahead_of_cldr()))
    return ("# The tags and subtags of IANA's registry with a Preferred-Value, each with that value, that CLDR does not replace yet. `und-`\n"
            f"# is before a region or a variant. Written by data/unicode/generate.py --accept. Do not edit.\n{rows}")


class OfUnicode(Generator):
    checksums = f"{DATA}.sha256"

    def data(self) -> list[str]:
        return [*files_of(DATA), CASES]

    def written(self) -> dict[str, str]:
        aliases, rules = Aliases(), identifiers()
        return {"crates/langtag_keyword/src/alias_tables.rt": tables(aliases), "crates/langtag_keyword/specs/Aliases.antt": lists(aliases),
                "crates/langtag_locale/src/locale_tables.rt": rule_tables(rules), "crates/langtag_locale/specs/LocaleAliases.antt": rule_lists(rules),
                AHEAD: ahead(rules)}

    def news(self) -> list[str]:
        """Returns a line for each tag that ahead-of-cldr.txt lacks, and for each tag that CLDR has replaced since."""
        standing, found = {tuple(row) for row in rows_of(AHEAD)}, set(identifiers().ahead_of_cldr())
        return [f"{AHEAD}: CLDR does not replace {old} yet, whose Preferred-Value is {new}" for old, new in sorted(found - standing)] + [
            f"{AHEAD}: CLDR has followed the registry, or the registry has changed: {old} {new}" for old, new in sorted(standing - found)]


if __name__ == "__main__":
    sys.exit(run(OfUnicode(), sys.argv[1:]))
