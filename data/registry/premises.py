"""The premises about the registry on which the definitions of its crates rely, and the form of their tables. Premises of proofs are not here:
the prover refuses a registry that breaks them, on a page that is proved by computation."""
from __future__ import annotations

import re
from collections.abc import Iterator

from common import IRREGULAR
from records import SUBTAG_TYPES, TAG_TYPES, Record, Registry

# The form of the subtags of each Type (RFC 5646 section 2.1). The tables only have languages of two and three letters, each as a bit.
SHAPES = {"language": "[a-z]{2,3}", "extlang": "[a-z]{3}", "script": "[a-z]{4}", "region": "[a-z]{2}|[0-9]{3}",
          "variant": "[a-z0-9]{5,8}|[0-9][a-z0-9]{3}"}
# The grandfathered tags of the grammar (section 2.1). No more can be added (section 2.2.8).
GRANDFATHERED = {*IRREGULAR, *"art-lojban cel-gaulish no-bok no-nyn zh-guoyu zh-hakka zh-min zh-min-nan zh-xiang".split()}


def is_of(form: str, text: str) -> bool:
    return bool(re.fullmatch(form, text, re.I | re.A))


def has_one_prefix(record: Record) -> bool:
    return len(record.values("Prefix")) == 1 and is_of(SHAPES["language"], record.values("Prefix")[0])


# Each premise: the Types of its records, what such a record has to be, and whether a record is that.
PREMISES = [
    (SUBTAG_TYPES, "of the class of its Type, with room in the tables", lambda record: is_of(SHAPES[record.kind], record.text)),
    (["extlang"], "its own Preferred-Value, in lowercase (section 2.2.2)", lambda record: record.value("Preferred-Value") == record.text.lower() == record.text),
    (["extlang"], "with one Prefix, which is a language (section 2.2.2)", has_one_prefix),
    (TAG_TYPES, "made of subtags of one to eight letters and digits", lambda record: is_of("[a-z0-9]{1,8}(-[a-z0-9]{1,8})*", record.text)),
    (["grandfathered"], "in the grammar", lambda record: record.text.lower() in GRANDFATHERED),
    # Each Prefix can be a range of extended filtering (RFC 4647 section 3.3.2).
    (["variant"], "with tags as its Prefixes", lambda record: all(is_of("[a-z]{1,8}(-[a-z0-9]{1,8})*", it) for it in record.values("Prefix"))),
    # The crate has no table of scripts that are deprecated or replaced.
    (["script"], "without Deprecated and Preferred-Value", lambda record: not record.values("Deprecated") + record.values("Preferred-Value")),
]


def broken(registry: Registry) -> Iterator[str]:
    """Yields a line for each record that breaks a premise, and for each grandfathered tag that is missing."""
    for kinds, what, holds in PREMISES:
        yield from (f"{record}: not {what}" for record in registry.all(*kinds) if not holds(record))
    yield from (f"grandfathered {text}: only in the grammar" for text in sorted(GRANDFATHERED - registry.kinds["grandfathered"].keys()))
