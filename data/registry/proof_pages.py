"""Writes the page of langtag_fields that is proved only by computation: each table has the content of the list with the same name."""
from __future__ import annotations

NOTE = "Written by data/registry/generate.py. Do not edit."

# The tables of numbers, and the lists from which the numbers are computed.
KEYS = [(f"{kind}_keys", f"{kind.upper()}_KEYS", f"{kind}_subtags") for kind in ("extlang", "script", "region", "variant")]
KEYS += [(f"deprecated_{kind}_keys", f"DEPRECATED_{kind.upper()}_KEYS", f"deprecated_{kind}s") for kind in ("language", "extlang", "region", "variant")]
# The tables of fields: the beginning of the lemmas' names, the field, the list, the tables, and the class of the values.
FIELDS = [
    ("preferred", "preferred_language", "language_preferred", "PREFERRED_LANGUAGE", "is_primary"),
    ("suppress", "suppress_script", "language_suppress_script", "SUPPRESS_SCRIPT", "is_script"),
    ("macro", "macrolanguage", "language_macrolanguage", "MACROLANGUAGE", "is_primary"),
    ("prefix", "extlang_prefix", "extlang_prefixes", "EXTLANG_PREFIX", "is_primary"),
    ("regions", "preferred_region", "region_preferred", "PREFERRED_REGION", "is_region"),
    ("variants", "preferred_variant", "variant_preferred", "PREFERRED_VARIANT", "is_variant"),
]
# The definitions on which a class rests, besides the class itself.
CLASS = {"is_primary": "is_primary is_letter", "is_script": "is_script is_letter", "is_region": "is_region is_letter is_digit", "is_variant": "is_variant is_letter is_digit"}
PLAIN = "folded_number fold_byte is_letter is_digit"


def lemma(name: str, statement: str, unfolding: str = "", proof: str = "refl", given: str = "") -> str:
    """Returns a lemma that is proved by computation. A long statement is on a separate line."""
    line = f"pub {name} : {statement}"
    if len(line) > 160:
        line = f"pub {name} :\n    {statement}"
    return "\n".join([line, *([f"unfolding {unfolding}"] if unfolding else []), f"{name}{given} = {proof}"])


ARE_KEYS = "record { numbers = refl; climb = refl; plain = refl }"

HEAD = f"""-- The tables have what the lists say: by computation. {NOTE}
use Rattle.langtag_scan.proofs.Prelude.{{◌≡◌, ℕ, true, List, Some, map, refl, list_all}}
use Rattle.langtag_scan.specs.Grammar.{{fold_byte, folded_number, is_letter, is_digit, is_primary, is_script, is_region, is_variant, are_alphanumeric}}
use Rattle.langtag_fields.specs.declared.tables.TheConstants as table
use Rattle.langtag_fields.specs.Fields as field
use Rattle.langtag_fields.specs.Subtags as list
use Rattle.langtag_fields.specs.Tables.{{AreKeysOf, IsTableOf, texts_at, AreEndsOf, end_number}}
use Rattle.langtag_fields.proofs.Values.{{value_good}}"""


def key_tables() -> list[str]:
    return [*(lemma(name, f"AreKeysOf table.{keys} list.{items}", f"list.{items} {PLAIN}", ARE_KEYS) for name, keys, items in KEYS),
            lemma("deprecated_tag_texts", "map (λ text. text.now) table.DEPRECATED_TAGS ≡ list.deprecated_tags", "list.deprecated_tags")]


def field_tables() -> list[str]:
    blocks = []
    for name, field, items, table, test in FIELDS:
        values = f"(texts_at (map (λ text. text.now) table.{table}_VALUES) table.{table}_INDICES)"
        blocks += [lemma(f"{name}_table", f"IsTableOf table.{table}_KEYS {values} list.{items}", f"list.{items} {PLAIN}", f"record {{ numbers = {ARE_KEYS}; beside = refl }}"),
                   lemma(f"{name}_good", f"(text new : List ℕ) → field.{field} text ≡ Some new → {test} new ≡ true",
                         f"field.{field} list.{items} {CLASS[test]}",
                         f"value_good {test} list.{items} text new refl is", " text new is")]
    entries = "map (λ pair. record { subtag = pair.0.now; value = pair.1.now }) table.PREFERRED_TAGS ≡ list.tag_preferred"
    ends = lemma("tag_ends", "AreEndsOf table.PREFERRED_TAG_KEYS (map (λ pair. pair.0.now) table.PREFERRED_TAGS)", "end_number folded_number fold_byte", "record { numbers = refl; climb = refl }")
    return [*blocks, lemma("tag_entries", entries, "list.tag_preferred"), ends]


def prefix_tables() -> list[str]:
    items, table = "list.variant_prefixes", "table.VARIANT_PREFIXES"
    return [
        lemma("prefix_numbers", f"map (λ pair. pair.0) {table} ≡ map (λ e. folded_number e.subtag) {items}", f"{items} folded_number fold_byte"),
        lemma("prefix_texts", f"map (λ pair. pair.1.now) {table} ≡ map (λ e. e.value) {items}", items),
        lemma("prefixed_alphanumeric", f"list_all (λ e. are_alphanumeric e.subtag) {items} ≡ true", f"{items} is_letter is_digit"),
    ]


PAGES = {"FieldTables": lambda: "\n\n".join([HEAD, *key_tables(), *field_tables(), *prefix_tables()]) + "\n"}
