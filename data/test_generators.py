#!/usr/bin/env python3
"""Tests the generator of a folder, in a copy of what it reads and writes: malformed data are refused with a line that names them, and nothing
is written; newer data are accepted; and --check names a file that differs.

    data/test_generators.py FOLDER
"""
import contextlib
import io
import itertools
import pathlib
import re
import shutil
import string
import sys
import tempfile
import unittest
from unittest import mock

FOLDER = sys.argv.pop(1)
HERE = pathlib.Path(__file__).resolve().parent
sys.path[:0] = [str(HERE / FOLDER), str(HERE)]
import common  # noqa: E402
import generate  # noqa: E402

GENERATOR = next(it for it in vars(generate).values() if isinstance(it, type) and issubclass(it, common.Generator) and it is not common.Generator)()
# What a generator reads besides its data.
ALSO = {"likely": ["crates/langtag_choice/specs/Nearness.antt"], "unicode": ["LANGUAGES", "REGIONS", "REGISTRY"], "names": ["REGISTRY", "ALIASES", "WHOLE"]}

# Malformed data: a file, what is in it, what replaces it, and words of the refusal, with `;` for the end of a line. If nothing is replaced, a
# record of IANA's registry is added.
MALFORMED = {"registry": """
| | language abcd | not of the class of its Type
| | language a1 | not of the class of its Type
| | language \N{LATIN SMALL LETTER LONG S}a | not of the class of its Type
| | extlang abcd | not of the class of its Type
| | script Latin | not of the class of its Type
| | region QAA | not of the class of its Type
| | region 1234 | not of the class of its Type
| | variant abcd | not of the class of its Type
| | variant abcdefghi | not of the class of its Type
| | extlang xyz; Preferred-Value: cmn | not its own Preferred-Value
| | extlang aaB; Preferred-Value: aaB | not its own Preferred-Value
| Type: extlang; Subtag: yue; | Type: extlang; Subtag: yue; Prefix: ar; | not with one Prefix
| Type: extlang; Subtag: yue; | Type: extlang; Subtag: yue; Prefix: zh-Hant; | not with one Prefix
| | redundant sl_rozaj | not made of subtags
| | redundant sl- | not made of subtags
| | grandfathered i-nine | not in the grammar
| Tag: i-mingo; | Tag: i-mango; | i-mingo: only in the grammar
| Subtag: nedis; | Subtag: nedis; Prefix: *-IT; | not with tags as its Prefixes
| Subtag: Latn; | Subtag: Latn; Deprecated: 2099-12-31; | not without Deprecated
| Subtag: Latn; | Subtag: Latn; Preferred-Value: Cyrl; | not without Deprecated
| File-Date: | Date: | not a File-Date
| 2099-12-31 | 2099-02-30 | the File-Date is not a date: 2099-02-30
| 2099-12-31 | yesterday | the File-Date is not a date: yesterday
| File-Date: 2099 | File-Date: 2000 | is not newer than
| Added: 2005-10-16; | | no Added
| | language iw | language iw: registered twice
| | language IW | language IW: registered twice
| | language qbc | language qbc: registered twice
| | language a..c | Subtag: a..c: not a range
| | language xx..ww | Subtag: xx..ww: not a range
| | language aa..bbb | Subtag: aa..bbb: not a range
| | region 01..09 | Subtag: 01..09: not a range
| | planet mars | an unknown Type
| Subtag: iw; | Subtag: iw; Preferred-Value: yi; | Preferred-Value twice
| Subtag: aa; | Subtag aa; | a line without a field: 'Subtag aa'
| Type: language; Subtag: aab; | Type: language; Subtag: qzx; | language aab: registered before
| Tag: zh-yue; | Tag: zh-yua; | zh-yue: a whole tag before
""", "likely": """
likely.txt | aa - - aa Latn ET; | aa - - aa Latn ET; aa - - aa Latn DJ; | a left side once
likely.txt | aa - - aa Latn ET; | aa - - aa Latn ZZ; | a region other than ZZ
likely.txt | aa - - aa Latn ET; | aa - - aa Zzzz ET; | a script other than Zzzz
likely.txt | aa - - aa Latn ET; | aa - - ab Latn ET; | the right side keeps the language
likely.txt | aa - - aa Latn ET; | abcd - - abcd Latn ET; | at most three letters
likely.txt | - - AD ca Latn AD; | - - AD qqq Latn AD; | the language of a right side is a left side
likely.txt | - Cpmn - - Cpmn CY; | - Cpmn - - Cpmn CY; - - QQ - Cpmn QQ; | a row without a language has a script on the left side
likely.txt | aaa - - aaa Latn NG; | | ^aaa: it had a row, and has none now$
region-alias.txt | 004 AF; | 004 AF; 001 AF; | no row is of a region that is replaced
region-alias.txt | 004 AF; | 004 AFG; | regions of two letters or three digits
language-alias.txt | tl fil - -; | tl iw - -; | no target is an alias
language-alias.txt | tl fil - -; | tl fil - -; tl id - -; | a left side once
language-alias.txt | tl fil - -; | tl fil Qaaa -; | a script and a region of the likely subtags
language-alias.txt | tl fil - -; | aaa fil - -; | no row is of a language that is replaced
language-distance.txt | da no 8 0; | da no 81 0; | a distance from 1 to 80
language-distance.txt | da no 8 0; | da no 16 0; | no distance from 15 to 19
language-distance.txt | da no 8 0; | da no 8 0; ger da 8 0; | or a pair of WITHOUT_EFFECT
region-distance.txt | en * $enUS $enUS 4; | en * $enUS $enUS 2; | other rules than those
paradigms.txt | Unicode CLDR | Unicode CLDR 99. | do not name one version
""", "unicode": """
type-alias.txt | u tz aqams aqmcm; | a tz aqams aqmcm; | the extension is u or t
type-alias.txt | u tz aqams aqmcm; | u t0 aqams aqmcm; | a key of its extension
type-alias.txt | u tz aqams aqmcm; | u tz aqams Aqmcm; | types are subtags in lowercase
type-alias.txt | u tz aqams aqmcm; | u tz aqams aqmcm; u tz aqams aqmcn; | a left side once
type-alias.txt | u tz aqams aqmcm; | u tz aqams eire; | no right side is a left side
type-alias.txt | u tz aqams aqmcm; | u sd aqams aqmcm; | rg and sd have subdivisions alone
type-alias.txt | u tz aqams aqmcm; | u tz true aqmcm; | nothing replaces true
type-alias.txt | u tz aqams aqmcm; | u tz aqams aqmcm-aqmcm; | longer by what its key allows
type-alias.txt | Unicode CLDR | Unicode CLDR 99. | do not name one version
subdivision-alias.txt | cn11 deprecated cnbj; | c11 deprecated cnbj; | codes in lowercase
subdivision-alias.txt | cn11 deprecated cnbj; | cn11 deprecated cnbj; cn11 deprecated cntj; | a left side once
subdivision-alias.txt | cn11 deprecated cnbj; | cn11 deprecated cn12; | no right side is a left side
language-alias.txt | aa-saaho ssy; | aa-saaho-sahoo ssy; | an alias of a known kind
language-alias.txt | aa-saaho ssy; | zh-min-saaho ssy; | a language identifier
language-alias.txt | aa-saaho ssy; | aa-saaho iw; | no new language is an alias
language-alias.txt | aa-saaho ssy; | iw-saaho ssy; | no language with a variant is an alias
language-alias.txt | aa-saaho ssy; | aa-hakka ssy; | a variant stands with one language
language-alias.txt | aa-saaho ssy; | aa-saaho zh; | a new language has no variant of its own
language-alias.txt | und-polytoni und-polyton; | und-polytoni und-heploc; | no new variant is an alias
language-alias.txt | und-heploc und-alalc97; | und-heploc und-polyton; | the second variant of a pair alone has the same alias
language-alias.txt | und-aaland und-AX; | und-aaland und-UK; | no new region is an alias
language-alias.txt | und-Qaai und-Zinh; | und-Qaai und-Qaai; | no new script is an alias
language-alias.txt | sgn-NO nsi; | sgn-NO nsl; | CLDR has the row that IANA's registry betters
language-alias.txt | sgn-DE gsg; | sgn-DE dsl; | the form of a tag of the registry is the form of its Preferred-Value
""", "names": """
data/likely/cldr/language-alias.txt | him srx | him xx | a replaced language and its replacement of three letters
data/unicode/cldr/language-alias.txt | sgn-BR bzs | him-BR bzs | no tag of the language that is replaced as a whole: him
""", "scan": ""}


class Generating(unittest.TestCase):
    def setUp(self):
        room = tempfile.TemporaryDirectory()
        self.addCleanup(room.cleanup)
        self.root = pathlib.Path(room.name)
        self.made = [*GENERATOR.written(), *filter(None, [GENERATOR.checksums])]
        self.data = [*GENERATOR.data(), *(getattr(generate, it, it) for it in ALSO.get(FOLDER, []))]
        for path in [*self.made, *self.data]:
            (self.root / path).parent.mkdir(parents=True, exist_ok=True)
            shutil.copy(common.ROOT / path, self.root / path)
        patch = mock.patch.object(common, "ROOT", self.root)
        self.addCleanup(patch.stop)
        patch.start()

    def run_with(self, *words):
        """Returns the status, and what is printed."""
        out = io.StringIO()
        with contextlib.redirect_stdout(out):
            status = common.run(GENERATOR, list(words))
        return status, out.getvalue()

    def written(self):
        return {path: common.text_of(path) for path in self.made}

    def newer(self):
        """Makes the date of the registry, or the version of CLDR, a newer one."""
        for path in self.data:
            text = re.sub(r"(?m)\A(File-Date: ).*|^(# .*Unicode CLDR )[0-9.]+ ", lambda found: f"{found[1]}2099-12-31" if found[1] else f"{found[2]}99.1 ", common.text_of(path))
            common.write({path: text})

    def test_malformed(self):
        lines = [line.split("|") for line in MALFORMED[FOLDER].strip().splitlines()]
        if FOLDER == "registry":
            self.newer()
        for name, old, new, told in ([word.strip().replace("; ", "\n").replace(";", "\n") for word in words] for words in lines):
            path = name if "/" in name else generate.REGISTRY if FOLDER == "registry" else f"{generate.DATA}/{name}"
            standing, before = common.text_of(path), self.written()
            if old:
                changed = standing.replace(old, new, 1)
            else:
                (kind, text), *fields = [line.split(" ", 1) if k == 0 else line for k, line in enumerate(new.split("\n"))]
                of = "Tag" if kind in ("redundant", "grandfathered") else "Subtag"
                changed = "\n".join([f"{standing}%%", f"Type: {kind}", f"{of}: {text}", "Description: Made up", "Added: 2099-12-31", *fields, ""])
            with self.subTest(name=name, new=new):
                self.assertNotEqual(changed, standing)
                common.write({path: changed})
                status, said = self.run_with("--accept")
                self.assertRegex(said, f"(?m){told if told[0] == '^' else re.escape(told)}")
                self.assertTrue(status)
                self.assertEqual(self.written(), before)
            common.write({path: standing})

    def test_newer(self):
        if not GENERATOR.checksums or FOLDER == "unicode":  # whose cases name the version, too
            return
        self.newer()
        self.assertRegex(self.run_with()[1], "--accept takes newer data")
        self.assertEqual((self.run_with("--accept"), self.run_with("--check")), ((False, ""), (False, "")))

    def test_a_file_that_differs(self):
        self.assertEqual(self.run_with("--check"), (False, ""))
        for path in GENERATOR.written():
            standing = common.text_of(path)
            common.write({path: standing + "#\n"})
            self.assertEqual(self.run_with("--check"), (True, f"differs: {path}\n"))
            common.write({path: standing})


@unittest.skipIf(FOLDER != "likely", "it is about parents")
class Chains(unittest.TestCase):
    def inherited(self, tag):
        """Returns the chain in which CLDR inherits (UTS #35, part 1, 'Parent Locales'): a script goes only if it is likely."""
        language, script, region = self.oracle.locale(tag)
        shorter = "" if script and not region and self.oracle.short(language, script, "")[1] else tag.rpartition("-")[0]
        return [tag, *self.inherited(self.parents.get(tag, shorter))] if tag else []

    def test_chains_of_cldr(self):
        """Each tag from which CLDR inherits is in the chain of parents, in CLDR's order."""
        import oracle
        self.oracle, self.parents = oracle, dict(oracle.rows("parents.txt"))
        for *_, language, script, region in filter(lambda row: row[3], oracle.rows("likely.txt")):
            is_usual = not oracle.short(language, script, "")[1] and not oracle.short(language, script, region)[1]
            for tag in [f"{language}-{script}-{region}", f"{language}-{script}"] + is_usual * [f"{language}-{region}", language]:
                ours = iter(oracle.parents(tag).split())
                self.assertTrue(all(member in ours for member in self.inherited(tag)), tag)


@unittest.skipIf(FOLDER != "names", "it is about names")
class Names(unittest.TestCase):
    def test_all_languages(self):
        """The name of a language is CLDR's for the language of its locale form, or the first Description of its own record."""
        sys.path.insert(0, str(HERE / "unicode"))
        sys.modules.pop("oracle", None)
        import oracle
        cldr = dict(row.split(" ", 1) for row in common.text_of("data/names/cldr/english-languages.txt").splitlines())
        records = re.findall(r"Type: language\nSubtag: ([a-z]+)\nDescription: (.*)", common.text_of(generate.REGISTRY))
        self.assertEqual(len(records), 8267)
        names = read_back()
        for code, description in records:
            form = oracle.locale_form(code).partition("-")[0]
            self.assertEqual(names.get((generate.REPLACED, code)) or names[generate.kind_of(form)], cldr.get(form, description), code)

    def test_packed(self):
        own = {(generate.OWN, tag): name for tag, name in generate.rows("autonyms", generate.TAG).items()}
        names = {(kind, key[:2].lower() + key[2:]): name for (kind, key), name in (generate.english_names() | own).items()}
        self.assertEqual(read_back(), names)


def read_back():
    """Returns the names by the bytes that begin their rows, and the keys, as the table of C has them."""
    _, *arrays = common.text_of(generate.HEADER).split("] = {")
    pairs, index, rows = ([int(it) for it in re.findall(r"\d+", array.partition(";")[0])] for array in arrays)
    names = {}
    for first, start, end in zip(itertools.product(string.digits + string.ascii_lowercase, repeat=2), index, index[1:]):
        for kind, text in re.findall(rb"([\x01-\x1f])([^\0-\x1f]+)", bytes(rows[start:end])):
            third = chr(96 | ord(kind)) if ord(kind) < generate.TWO_LETTERS else ""
            rest, _, name = text.partition(b" ") if ord(kind) > generate.TWO_LETTERS else (third.encode(), b"", text)
            while ord(kind) != generate.OWN and any(pairs[2 * byte] for byte in name):
                name = bytes(it for byte in name for it in (pairs[2 * byte:2 * byte + 2] if pairs[2 * byte] else [byte]))
            names[ord(kind), "".join(first) + rest.decode()] = name.decode()
    return names


if __name__ == "__main__":
    unittest.main()
