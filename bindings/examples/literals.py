"""Literals of RDF with language tags, with rdflib (in Debian: python3-rdflib): python3 literals.py FILE HEADER

It reports where the tags of a file of N-Triples are wrong, and prints the label of each subject that is best for an Accept-Language
header. Its function `matches` is langMatches of SPARQL, also for extended ranges such as `de-*-DE`, which rdflib 6.1.1 matches.
"""
from __future__ import annotations

import re
import sys
from typing import Iterable, Iterator

import langtag
from rdflib import Graph, Literal, Namespace
from rdflib.namespace import RDFS, XSD
from rdflib.plugins.sparql.operators import custom_function
from rdflib.term import Identifier

LT = Namespace("urn:x-langtag:")
#: A literal with a tag, as N-Triples and Turtle write it. A base direction of RDF 1.2, such as `--rtl`, is no part of the tag.
TAGGED = re.compile(r'"(?:[^"\\]|\\.)*"@([A-Za-z]+(?:-[A-Za-z0-9]+)*)')


@custom_function(LT.matches, raw=False)
def matches(tag: Identifier, wanted: Identifier) -> Literal:
    """Returns langMatches: `FILTER(<urn:x-langtag:matches>(LANG(?label), "en"))`. A string that is no tag or no range never matches."""
    try:
        return Literal(langtag.Range(str(wanted)).matches_basic(str(tag)))
    except langtag.InvalidRange:
        return Literal(False)


def term_key(term: Identifier) -> tuple[str, ...]:
    """Returns a key that is equal for equal terms of RDF 1.2. The tag is in lowercase, and never in canonical form."""
    if not isinstance(term, Literal):
        return (term.n3(),)
    return str(term), (term.language or "").lower(), str(term.datatype or XSD.string)


def best_label(graph: Graph, subject: Identifier, header: str) -> Literal | None:
    """Returns the label of a subject for a header, or if no language is suitable, the label without a tag."""
    labels = sorted((it for it in graph.objects(subject, RDFS.label) if isinstance(it, Literal)), key=term_key)
    tagged = [it.language for it in labels if it.language and langtag.kind(it.language)]  # `kind` is None if it is no tag
    best = langtag.best_for_header(header, tagged)
    return next((it for it in labels if it.language == best), None)


def faults(lines: Iterable[str]) -> Iterator[str]:
    """Yields each tag of N-Triples that is malformed or not valid, with its line, and the column of the wrong subtag."""
    for row, line in enumerate(lines, 1):
        for found in TAGGED.finditer(line):
            try:
                wrong = langtag.Tag(found[1]).invalid_subtag
            except langtag.InvalidTag as error:
                wrong = error
            if wrong:
                yield f"line {row}, column {found.start(1) + wrong.start + 1}: {found[1]}: {wrong}"


if __name__ == "__main__":
    with open(sys.argv[1], encoding="utf-8") as file:
        text = file.read()
    print(*faults(text.splitlines()), sep="\n", file=sys.stderr)
    labels = Graph().parse(format="nt", data=text)
    for each in sorted(set(labels.subjects(RDFS.label))):
        print(each, best_label(labels, each, sys.argv[2]))
