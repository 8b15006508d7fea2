"""Tests literals.py by the rows of rdf.txt, and compares langMatches with rdflib's."""
import unittest

import rdflib
from rdflib.plugins.sparql import prepareQuery

import literals
import rows

# The rows that rdflib 6.1.1 answers otherwise, each a range and the tags: `*` matches one subtag, strings that are no tags or no ranges
# match, and blanks are trimmed.
OTHERWISE = {
    "*-DE": "de-DE", "*-*": "de-DE", "de-*": "de-DE", "de-*-DE": "de-Latn-DE de-Latn-DE-1996", "zh-*-TW": "zh-Hant-TW", "en-*-*": "en-Latn-GB",
    "*": "a-b abcdefghijk de-1996-x en-a-a", "en": "en-a en-abcdefghi", "de": "de-419-DE", " en": "en", "en ": "en-GB", "abcdefghi": "abcdefghi-x", "\u212ak": "kk",
}
LINES = [
    '<urn:a> <http://www.w3.org/2000/01/rdf-schema#label> "B\u00e4rn"@DE-ch .', '<urn:a> <http://www.w3.org/2000/01/rdf-schema#label> "Berne"@fr .',
    '<urn:a> <http://www.w3.org/2000/01/rdf-schema#label> "#3012" .', '<urn:a> <http://www.w3.org/2000/01/rdf-schema#label> "\\"a\\"@b"@de-419-DE .',
    '<urn:a> <http://www.w3.org/2000/01/rdf-schema#label> "Berne"@simple .',
]
FAULTS = [
    "line 4, column 71: de-419-DE: invalid language tag `de-419-DE`: unexpected subtag `DE`",
    "line 5, column 62: simple: language simple is not registered",
]


def asked(call):
    """Yields the arguments of each row of a call, and its answer."""
    for row in rows.read(rows.FOLDER / "rdf.txt"):
        if row.call == call:
            yield *(it.decode() for it in row.arguments), row.wanted


class Literals(unittest.TestCase):
    def test_lang_matches(self):
        query = prepareQuery("ASK { FILTER(LANGMATCHES(?tag, ?range)) }")
        for text, tag, how in asked("match"):
            terms = {"tag": rdflib.Literal(tag), "range": rdflib.Literal(text)}
            matches = how in ("both", "basic")
            self.assertEqual(literals.matches(terms["tag"], terms["range"]).value, matches, (text, tag))
            if rdflib.__version__ == "6.1.1":
                theirs = rdflib.Graph().query(query, initBindings=terms).askAnswer
                self.assertEqual(theirs != matches, tag in OTHERWISE.get(text, "").split(), (text, tag))

    def test_same_term(self):
        for *pair, same in asked("same-term"):
            one, other = (next(iter(rdflib.Graph().parse(format="nt", data=f"<urn:s> <urn:p> {it} .")))[2] for it in pair)
            self.assertEqual(literals.term_key(one) == literals.term_key(other), same == "yes", pair)

    def test_labels_and_faults(self):
        graph, subject = rdflib.Graph().parse(format="nt", data="\n".join(LINES)), rdflib.URIRef("urn:a")
        for header, wanted in (("gsw, fr;q=0.5", "B\u00e4rn"), ("fr-CA", "Berne"), ("fi", "#3012"), ("", "#3012")):
            self.assertEqual(str(literals.best_label(graph, subject, header)), wanted)
        self.assertEqual([*literals.faults(LINES)], FAULTS)


if __name__ == "__main__":
    unittest.main()
