#!/usr/bin/env python3
"""Checks that the tests find wrong wrappers. It plants faults in langtag.hpp, langtag_names.h, the files of the Rust crate that are
written by hand, the Python module, the JavaScript package and the extensions of SQLite and PostgreSQL. It builds the result, and runs
the rows or a test of that language.

    wrong_wrappers.py [--record REPOSITORY] LIBRARIES [LANGUAGE..]    LIBRARIES has liblangtag_verified.a
    wrong_wrappers.py --texts                                         only checks that each fault can be planted

With --record, a language whose faults were all found before gets a twentieth of them, which the commit chooses, unless its faults, the
files that they change or langtag_c have changed since. wrong_wrappers.txt in the repository's bindings/ records this.

Without a language, all run but PostgreSQL, which needs a server: PGPORT and similar variables name it, and PG_CONFIG, DESTDIR,
LANGTAG_ARCHIVE and LANGTAG_INCLUDE are those for which `make installcheck` passes.

A language is built once with the faults in bodies of functions, each behind a switch (switched.py), and once more for each other
fault. A fault is found if the tests fail with the words that belong to it, for example the row that differs. A fault that does not
build is not found. The tests of each language run without a fault first, and have to pass.

A fault is planted once if the rows that show it are the same in each language, mostly in C++. None only calls another function of the same
form, or exchanges two names: the test of each language fails if no row asks one of its calls.
"""
from __future__ import annotations

import concurrent.futures
import functools
import hashlib
import os
import pathlib
import re
import shutil
import subprocess
import sys
import tempfile
from typing import Callable, Iterable, Iterator, NamedTuple

from switched import C, FORBIDDEN, POSTGRESQL, RUST, Change, switched

ROOT = pathlib.Path(__file__).resolve().parent.parent

# The faults of each language: the folder of its files, and lines. A line has a file, the test or the file of rows that finds its faults,
# and changes, with ;; between them. A change is `old`new` in the text around it, or two texts that are exchanged, with <> between them.
# The first such place in the file counts, and a blank is any white space. After = are words of the failure, if they are not the usual ones.
TABLES = {
    "C++": ("bindings/include", r"""
langtag.hpp edits.txt: `{part::extensions, extension},``
langtag.hpp refused.txt: most = `80`81`) ;; code << `6`5`
langtag.hpp table.txt: langtag_parse(`langtag_bytes(text.data()), text.size(`text.data(), __builtin_strlen(text.data()`), &
langtag.hpp table.txt: return `langtag_cmp(langtag_bytes(x.data()), x.size(), langtag_bytes(y.data()), y.size()) < 0`x < y`
langtag.hpp table.txt: return `langtag_eq(langtag_bytes(x.data()), x.size(), langtag_bytes(y.data()), y.size())`x == y`
langtag.hpp table.txt: `langtag_base_len(text_.data(), text_.size()`text_.size(`))); ;; return langtag_matches_`extended`basic`(
langtag.hpp table.txt: found <= `LANGTAG_VALID`LANGTAG_INVALID_LANGUAGE`) ;; if (found `== LANGTAG_NONE`!= LANGTAG_NORMAL`)
langtag.hpp lengths.txt: if (len <= `sizeof room) return std::string(room, len`2 * sizeof room) return std::string(room, len < 128 ? len : 128`);
langtag.hpp lengths.txt: &made[0], made.size()); return made``.substr(0, 1000)`;
langtag.hpp negotiation.txt: `basic.erase(at, 2)`at += 2`
langtag.hpp negotiation.txt: answer == LANGTAG_ACCEPTED_RANGE` && weight > 0`` ;; a.weight `>`<` b.weight
langtag.hpp choices.txt: header.substr(match.range.start`, match.range.len``) ;; match.range.len), match.distance`` % 100`}
langtag.hpp keywords.txt: written`(langtag_without_keyword`_by(langtag_without_keyword, text_.substr(0, 4)`,
langtag.hpp keywords.txt: langtag_bytes(value.data()), value.size()`` % 8`));
langtag.hpp locale.txt: return `langtag_is_locale(text_.data(), text_.size())`kind_ == langtag::kind::normal`;
langtag.hpp locale.txt: return `unless_empty(written(langtag_locale_form)`written(langtag_locale_form`);
langtag.hpp suitable.txt: found.data(), room`` / 2`)));
langtag.hpp posix.txt: name.substr(modifier.`start, modifier.``len)
langtag.hpp parents.txt: std::string next(`text_`written(langtag_parent)`);
langtag.hpp lists.txt: ranges()) ``if (wanted.empty()) `wanted.push_back(it.range)
langtag_names.h names.txt: `if (!langtag_name_row(LANGTAG_NAME_REPLACED, own, sizeof own)) return;``
langtag_names.h names.txt: `is_usual ? language_len : 0`language_len`; ;; byte == '(' ? '[' : '`]`)`' ;; `if (*row != kind) continue;``
"""),
    "Rust": ("rust/src", r"""
text.rs owned: `case_insensitive_eq(self.as_str().as_bytes(), other.as_bytes()`self.as_str().as_bytes() == other.as_bytes(`)
text.rs owned: Ok(lent) => Ok(`lent.to_owned`$owned::new(lent.to_ascii_lowercase()).unwrap`()),
text.rs owned: self.`$lend().partial_cmp(other`as_str().partial_cmp(other.as_str()`) ;; <$other>::from(*self) `=`!`= *other
text.rs habits: core::str::from_utf8(bytes).`map_err(|_| $error(bytes))?`unwrap_or("und")`
text.rs habits: $name::new(text``.trim()`).map_err(|_| $error(bytes))
text.rs guesses: $error(`error.into_bytes`Vec::new`())
names.rs rows: .filter(|own| `*own != named.language()`false`) ;; `if is_usual { 4 } else { 3 }`4`
lent.rs owned: `self.$lend`$name::try_from("zh").unwrap`().$call($($argument)?)
caseless_text.rs habits: `case_insensitive_cmp(self.text().as_bytes(), other.text().as_bytes`self.text().cmp(other.text`())
caseless_text.rs habits: `case_insensitive_eq(self.text().as_bytes(), other.text().as_bytes()`self.text() == other.text(`)
caseless_text.rs habits: `case_insensitive_hash(self.text().as_bytes(), `self.text().hash(`state)
keywords.rs keywords: set_keyword(self, `key, value`value, key`)
keywords.rs rows: `remove_keyword(self, key`set_keyword(self, key, ""`)
conversions.rs guesses: `tag.as_normal().ok_or(`NormalLangTag::new(&tag.as_str()[..2]).map_err(|_| `InvalidNormalLangTag(tag.as_str()))
conversions.rs methods: `self.get_singleton(singleton.try_into().ok()?)`{ let exact = singleton.try_into().ok()?; self.iter().find(|it| it.singleton().unwrap() == exact.unwrap()) }`
conversions.rs methods: LanguageRange::from_checked(tag.``base().`as_str())
invalid_subtag.rs rows: 1` + length(tag.variants().iter().take(index))``
invalid_subtag.rs program: ["`repeated-``variant", "variant ", " is repeated"]
invalid.rs owned: $error(`self.0.into`Default::default`())
message.rs rows: RefusalKind::`Subtag`End` if refusal.start == refusal.end ;; map_or(1, `char::len_utf8`|_| 1`)
message.rs rows: for byte in `chunk.invalid()`&chunk.invalid()[..0]` {
lists.rs rows: this => LangTag::new(`this`&this[..2.min(this.len())]`).ok(); ;; this => `Some(this.as_lang_tag())`None`;
lists.rs methods: if let Ok(range) = LanguageRange::new(first.as_ref())``.or(LanguageRange::new("en"))` {
matching.rs rows: `is_range(entry.tag_bytes(), range) && entry.tag().is_some()`entry.tag_bytes() == range`
matching.rs rows: found(Ranges(ranges), tags).unwrap_or(`default`tags.first().unwrap_or(default)`)
choice.rs choice: &found[..count``.min(1)`]
site.rs choice: found.into_iter().``rev().`map(
too_short.rs rows: buffer.get(..len).ok_or(TooShort { needed: `len`buffer.len()` })?
methods.rs rows: choice::distance(`self, supported.into()`supported.into(), self`)
methods.rs methods: tag.validate().`is_ok`is_err`()
shown.rs methods: Kind::Grandfathered => "`grandfathered`normal`"
walks.rs habits: `self.iter()`{ let mut walk = self.iter(); walk.next(); walk }`
oxilangtag.rs oxilangtag: `Some(&*self.tag).filter(|tag| begins_private_use(tag))`None` ;; `tag.make_recommended_case();``
oxilangtag.rs oxilangtag: Some(normal) `if !read.is_grandfathered() ``=>
bin/langtag/answers.rs program: answer.good = `best.is_some()`true`;
bin/langtag/pointer.rs program: refusal.`offset..refusal.offset + 1`start..refusal.end`
bin/langtag/input.rs program: line.`strip_suffix(b"\n").unwrap_or(&line`trim_ascii_end(`)
bin/langtag/input.rs program: if `input.buffer().is_empty()`false` {
"""),
    "Python": ("bindings/python", r"""
langtag/__init__.py table.txt: found.setdefault(singleton`.lower()``, tuple(subtags)) ;; return _split(self.language)[`1`2`:]
langtag/__init__.py table.txt: `_FAULTS.index(self.fault) + ``2, self.subtag ;; repeats(self._data)[`1:3`3:`]
langtag/__init__.py parents.txt: return `self._made(_backend.parent(self._data))`None`
langtag/__init__.py refused.txt: "repeated": "is `repeated`not registered`" ;; self.offset : end], text)[:`1`2`]
langtag/__init__.py negotiation.txt: key=lambda weighted: `-``weighted.weight
langtag/__init__.py edits.txt: self.part, self.text = part, `text`None`
langtag/__init__.py unicode.txt: self._at(start, length)`.lower()``:
langtag/__init__.py keywords.txt: tag = `tag`self`._with_keyword(key, text)
langtag/__init__.py locale.txt=AssertionError: self.`_made(_backend.locale_form(self._data)`_base(_backend.locale_form(self._data) or self._data`)
langtag/__init__.py posix.txt: [modifier[`0`1`] : sum(modifier)]
langtag/__init__.py Values.test_copies: return type(self), (`getattr(self, "_base", type(self)).__str__(self)`""`,)
langtag/__init__.py Refusals.test_one_family: raise `InvalidLocale`ValueError`(name)
langtag/__init__.py Negotiation.test_texts: return `listed[index]`Tag(listed[index])` if
langtag/__init__.py Threads.test_that_a_list_may_change_during_a_choice: listed = ``tags if type(tags) is list else `list(_several(tags, "tags")) index
langtag/__init__.py lists.txt: best_for_ranges([it.range for it in self._ranges``[:1]`], tags, default)
langtag/__init__.py lists.txt: else bytes_of(it, "range")``.replace(b"-*", b"")` for it
langtag/__init__.py Negotiation.test_equality: return self._ranges` == other._ranges`[:1] == other._ranges[:1]`
langtag/__init__.py choices.txt: header[start : start + `length`64`], "ascii") ;; BestMatch(`index`0`, tags[index],
langtag/__init__.py Edits.test_forms_that_change_nothing: if `type(self) is self._base and ``text == self._data
langtag/__init__.py Edits.test_forms_that_change_nothing: self if type(self) is `self._base`Range` and
langtag/__init__.py Edits.test_a_language_that_is_removed: if `text or part != "language"`True` else
langtag/_texts.py refused.txt: return text``.split(b"\0")[0]` if type(text) is bytes
native/parts.c Threads.test_that_each_call_on_a_long_text_lets_others_run: LET_GO(`self->text.len`0`); bool answer = langtag_validity
native/value.c table.txt: operator == Py_LE ? order <`=`` 0 ;; == `(operator == Py_EQ)`true`
native/value.c Threads.test_that_only_one_of_two_calls_of_init_succeeds: if (!kind` || self->text.owner``) {
native/value.c Values.test_other_objects: `Py_INCREF(Py_NotImplemented); return Py_NotImplemented`return PyBool_FromLong(operator == Py_NE)`;
native/value.c Values.test_a_copy_is_the_tag: `self->kind = other->kind;``
native/value.c Values.test_arguments: {"`text`value`", NULL}
native/calls.c lengths.txt: answer && len > `sizeof room`514`) { data = PyBytes_AsString(answer); LET_GO(text.len); langtag_canonical(
native/calls.c lengths.txt: langtag_base_len(text.data, text.len`` & 0x7ff`);
native/calls.c Memory.test_that_nothing_is_kept: `Py_XDECREF(value.owner);``
native/calls.c negotiation.txt: (Py_ssize_t)range.len`` - 1`, (unsigned)weight
native/calls.c choices.txt: ranges.spans, ranges.count`` > 0`,
native/calls.c Threads.test_that_each_call_on_a_long_text_lets_others_run: LET_GO(`header.len + tags.len`0`);
native/calls.c Threads: &offset);` TAKE_BACK();``
native/list.c negotiation.txt=: `list->len += text->len;``
native/list.c suitable.txt: PyLong_FromSize_t(numbers[``count - 1 - `i])
native/list.c Negotiation: count <= sizeof list->few` / sizeof *list->few``
native/list.c Negotiation.test_best: `memcpy(more, list->text, list->len);``
native/list.c WrongCalls: `|| !tag->text.owner``) {
native/names.c names.txt: `langtag_name_keep_language(tag.data, tag.len, data);``
native/text.c Kinds.test_subclasses_of_texts: `PyBytes_FromStringAndSize(data, len`PyBytes_FromString(data`);
"""),
    "JavaScript": ("bindings/js", r"""
index.js table.txt: "second-extlang", `"script", "region"`"region", "script"` ;; `if (!found.has(subtag.toLowerCase()))``
index.js unicode.txt: if (key !== ""` && !found.has(key)``)
index.js keywords.txt: tag = tag.#withKeyword(key, value `??`||` undefined)
index.js locale.txt: `form === "" ? undefined : ``new
index.js parents.txt: calls.nthParent(this.text, found.length`` + 1`)
index.js names.txt: LONGEST_NAMED ? undefined : `read.localeForm()`undefined`) ?? read.canonical()
index.js posix.txt: return found && text.slice(found[`0], found[0] + found[``1]);
index.js keywords that are set and removed: `Array.isArray(pair) && ``[pair[0]
index.js negotiation.txt: AcceptLanguageError, text, `index, offset`offset, index`,
index.js edits.txt: text === "" && value !== null` && !isList``
index.js refused.txt: characters.slice(0, `80`81`)
index.js a tag does not change: `Object.freeze(this);``
index.js lists of tags and of ranges: "ranges")].``slice(0, 1).`map((range) => textOf
index.js choices.txt=not so: chosen(`calls.bestForRanges`(all, offered) => calls.bestForHeader(all.join(" "), offered)`,
index.js suitable.txt: .``sort().`map((index) => list[index])
index.js choices.txt: [index, `start, length`length, start`, distance] = calls
index.js choices.txt=the match of a site: [index, `start, length`length, start`, distance] = calls.site
index.js lists.txt=not so: siteBestForRanges(rangeTexts(ranges)``.slice(0, 1)`,
index.js a site does not change: Object.freeze(`[...several(tags, "tags")]`several(tags, "tags")`)
calls.js a range, a tag or a text of a megabyte: return `canonical(text, length`read(at1, room`);
memory.js table.txt: bytes.subarray(at, at + `length`Math.min(length, 8192)`)
memory.js texts that are refused, of any units: unit `< 0x80 ? unit :`&` 0xff
memory.js calls that are cut off: if (`isOpen`memory === undefined`) start();
memory.js the memory of a long text is given back: `if (bytes.length > most) start();``
memory.js choices.txt=not so: module.begin, length, tags` + PREPARED * index``);
memory.js a site is kept while other calls use the memory: tags: bytes.`slice`subarray`(
"""),
    "SQLite": ("bindings/sqlite", r"""
sqlite_langtag.c suitable.txt: tags->spans[`tags->found[k]`k`]
sqlite_langtag.c test_tags_that_change: `|| (tag.len > 0 && memcmp(tag.at, tags->bytes + tags->spans[k].start, tag.len) != 0)``
sqlite_langtag.c test_tags_that_are_kept: ``if (k > 0) `langtag_prepare(tags->bytes,
sqlite_langtag.c test_memory: sqlite3_set_auxdata(context, 1, tags, `sqlite3_free`NULL`) ;; `sqlite3_free(rows->bytes);``
sqlite_langtag.c test_memory: made, len, `sqlite3_free`SQLITE_TRANSIENT` ;; `sqlite3_free(form);`` } FUNCTION(autonym)
sqlite_langtag.c choices.txt: (int)best` - 1``, text_of
sqlite_langtag.c table.txt: return `langtag_cmp(langtag_bytes(a), (size_t)a_len, langtag_bytes(b), (size_t)b_len`memcmp(a, b, (size_t)(a_len < b_len ? a_len : b_len)`);
sqlite_langtag.c table.txt: kind `!= LANGTAG_NONE`== LANGTAG_NORMAL` && span->len > 0
sqlite_langtag.c names.txt: (len <= sizeof room) {`` langtag_recommend(room, len);`
sqlite_langtag.c table.txt: &invalid) `== LANGTAG_VALID`!= LANGTAG_VALIDITY_NONE`; ;; made, len`` < 512 ? len : 512`, sqlite3_free
sqlite_langtag.c table.txt: span.len`` < 255 ? span.len : 255`, SQLITE_TRANSIENT
sqlite_langtag.c table.txt: {"private_use", &parts->`private_use`extensions`} ;; langtag_parse(tag.at, `tag.len`strlen(tag.at)`, &
sqlite_langtag.c test_statements: return; memmove(bytes, bytes + rows->best_len, tag.len`` < 255 ? tag.len : 255`);
sqlite_langtag.c test_statements: `memcmp(rows->header, header.at, header.len) == 0`rows->header`) return true;
sqlite_langtag.c test_statements: return `langtag_kind(tag, len) != LANGTAG_NONE`true`; ;; `strlen(named[k].name) == name.len &&``
sqlite_langtag.c test_statements: | SQLITE_DETERMINISTIC` | SQLITE_INNOCUOUS`` ;; both, 2) `!= 1`== 0`) return;
sqlite_langtag.c lengths.txt: (len <= `sizeof room`2000`) {
sqlite_langtag.c test_lengths: return `called(context)->is_quadratic`false` && exceeds(context
sqlite_langtag.c test_check: `!is_too_long(context, tag`langtag_kind(tag.at, tag.len`)) sqlite3
sqlite_langtag.c keywords.txt: if (!value.`at`len`) return langtag_without_keyword
sqlite_langtag.c keywords.txt: .key = `key, .value = value`value, .value = key`};
sqlite_langtag.c posix.txt: of.at` + span.start``, span.len
"""),
    "PostgreSQL": ("bindings/postgresql", r"""
langtag_pg.c operators: `if (len > sizeof room) folded = palloc(len);`` ;; return `DatumBigEndianToNative(number)`number`;
langtag_pg.c operators: (int)len, `(uint64)PG_GETARG_INT64(1)`0`) ;; `langtag_fold(head, sizeof head);``
langtag_pg.c operators: `langtag_fold(folded, len);``
langtag_pg.c filters: memcpy(VARDATA(answer), bytes, `end`Min(end, 63)`);
langtag_pg.c filters: if` (bytes[0] == '*') end = 0; else if`` ;; return `BYTES(value)[0] != '*'`true`; ;; '~' : '`.`-`'
langtag_pg.c filters: bool lossy = `extended`false`; ;; else if (``!`extended) end
langtag_pg.c registry: &span[1])) { /* each call reads the tag from its start */ `CHECK_FOR_INTERRUPTS();``
langtag_pg.c registry: TYPALIGN_INT, &values, &nulls, &count);`` count = Min(count, 256);` ;; `CHECK_FOR_INTERRUPTS(); ``if (best
langtag_pg.c registry: LEN(name), &found)) `PG_RETURN_NULL()`found.start = found.len = 0`; ;; if (tag == NULL) `continue`break`;
langtag_pg.c registry: `ARR_ELEMTYPE(array) == TEXTOID && k < all.count`false` ;; `check_length("tag", tag, LONGEST_TAG);``
langtag_pg.c registry: `|| memcmp(it->array, array, VARSIZE(array)) != 0`` ;; `if (best >= 0) some[taken++] = best;``
langtag_pg.c registry: entries[k] = all->entries[`some[k]`k`]; ;; all.places[all.count] = `k`all.count`;
langtag_pg.c registry: it->tags = tags_of(`it->``array);
langtag_pg.c types: (int)`LEN(value`Min(LEN(value), 2000`)); PG_RETURN_BYTEA_P ;; `langtag_recommend(VARDATA(tag), len);``
langtag_pg.c types: == LANGTAG_NONE) `PG_RETURN_NULL(`refuse_tag(NULL, "", 0`); ;; BYTES(b), LEN(b)) `>`<`= 0 ? a : b
langtag_pg.c types: int size = `pg_mblen(text)`1`; ;; if (`len > 0 && ``langtag_kind
langtag_pg.c parts: `while (next(BYTES(tag), LEN(tag), &rest, &one)`for (int k = 0; k < 256 && next(BYTES(tag), LEN(tag), &rest, &one); k++`) {
langtag_pg.c parts: primary_of(tag, &rest); return span_or_null(fcinfo, BYTES(tag), `rest`primary_of(tag, &rest)`)
langtag_pg.c parts: value = PG_ARGISNULL(2) ? `NULL`cstring_to_text("")` : PG_GETARG_TEXT_PP(2);
langtag_pg.c parts: write_keyword(`"und", 3`BYTES(tag), LEN(tag)`, key, value, nothing, 0) > 0
langtag_pg.c parts: sizes[0] = `(int)count, sizes[1] = 2`2, sizes[1] = (int)count`;
langtag_pg.c parts: [LANGTAG_PRIVATE_USE] = "`private-use`irregular`"
langtag_pg.c parts: `langtag_base_len(BYTES(tag), LEN(tag)`LEN(tag`) ;; `langtag_recommend(VARDATA(changed), len);``
langtag.sql types: 'pg_langtag_tag_for_header' LANGUAGE C `IMMUTABLE STRICT PARALLEL SAFE`STABLE STRICT` COST 50
langtag.sql types: 'pg_langtag_set_language' LANGUAGE C IMMUTABLE STRICT PARALLEL SAFE`` LEAKPROOF`
langtag.sql types: LANGUAGE internal IMMUTABLE STRICT` LEAKPROOF``
langtag.sql operators: `, FUNCTION 4 btequalimage(oid)`` ;; '`byteane`byteaeq`'
langtag.sql filters: langtag_basic_upper(langtag_range) RETURNS `langtag_bound`langtag` ;; RESTRICT = `matchingsel`eqsel`
langtag.sql operators: OPERATOR 1 <`, OPERATOR 2 <=`=, OPERATOR 2 <` ;; '`pg_langtag_hash_extended`pg_langtag_hash`'
langtag.sql operators: `, HASHES, MERGES`` ;; SORTOP = `>`<`
langtag.sql types: WITHOUT FUNCTION AS `ASSIGNMENT`IMPLICIT`
"""),
}


class Fault(NamedTuple):
    """A planted fault: its file, the file of rows or the test that finds it, the words of the failure, and the change."""

    file: str
    by: str
    says: str
    line: str

    def change(self, text: str, number: int = 0) -> Change | None:
        """Returns the change in the text of the file, or None if the text has no such place."""
        texts = re.split(" <> |`", self.line)
        words = [r"\s+".join(map(re.escape, it.split(" "))) for it in texts]
        if len(texts) == 2:
            found = re.search(f"({words[0]})(.*?)({words[1]})", text, re.DOTALL)
            return found and Change(number, *found.span(), found[3] + found[2] + found[1])
        before, old, _, after = words
        found = re.search(f"{before}({old}){after}", text)
        return found and Change(number, *found.span(1), texts[2])


def faults_of(language: str) -> Iterator[Fault]:
    """Yields the faults of a language."""
    folder, table = TABLES[language]
    for line in table.strip().splitlines():
        place, _, changes = line.partition(": ")
        file, _, by = place.partition(" ")
        by, *said = by.split("=")
        named = {"Rust": "FAILED", "JavaScript": f"not ok - {by}", "PostgreSQL": f"not ok - {by}"}
        test = by.rpartition(".")[2] if "test_" in by else ""  # or a class, in Python, if the fault may end the process
        usual = "wanted" if by.endswith(".txt") else named.get(language, test)
        yield from (Fault(f"{folder}/{file}", by, *(said or [usual]), change) for change in changes.split(" ;; "))


FAULTS = {language: list(faults_of(language)) for language in TABLES}

# How the tests of each language are built, in a copy of what they need.
CARGO = "cd rust && CARGO_TARGET_DIR=../target RUSTFLAGS='-Awarnings -Cdebuginfo=0' cargo test -q --offline --features names,oxilangtag"
BUILD = {
    "C++": "cc -w -c bindings/c/test/rows.c bindings/c/test/fences.c && c++ -w -std=c++17 -Ibindings/include bindings/c/test/rows.cc"
           " rows.o fences.o $LIBRARIES/liblangtag_verified.a -o test",
    "Rust": f"{CARGO} --no-run $TESTS",
    "Python": "bindings/python/native/compile $LIBRARIES/liblangtag_verified.a bindings/python/langtag/_native.abi3.so",
    "SQLite": "cc -w -fPIC -shared -Ibindings/include bindings/sqlite/*.c $LIBRARIES/liblangtag_verified.a -o sqlite_langtag.so",
    "PostgreSQL": "make -s -C bindings/postgresql all install",
}
LEFT_OUT = shutil.ignore_patterns("target", "dist", "__pycache__", "build", "peers")


def program(by: str) -> str:
    """Returns the option that names the program of a test of Rust."""
    return f"--test {'rows' if by == 'rows' else 'all'}"


def command(language: str, by: str) -> str:
    """Returns the command that runs a file of rows, or a test, or all rows if none is named."""
    is_rows = by == "" or by.endswith(".txt")
    if language == "C++":
        return f"./test {f'vectors/calls.txt vectors/{by} 1' if by else '$(make -s -C bindings/c ROWS=$PWD/vectors asked-cc)'}"
    if language == "Rust":
        return f"{CARGO} {program(by)} {'' if by == 'rows' else by + '::'} -- --skip prefixes"  # a long test, of the recogniser
    if language == "JavaScript":
        alone = f"--test-name-pattern='{by}'" if by else ""
        return f"node --test-reporter=tap {alone} bindings/js/test/{'rows' if is_rows else 'langtag'}.test.js"
    if language == "PostgreSQL":  # `types` creates the extension
        named = f"REGRESS='{' '.join(dict.fromkeys(['types', by]))}'" if by else ""
        # An earlier fault may have ended the server, which accepts connections only after it has recovered.
        return f"python3 bindings/postgresql/test/server.py && timeout 60 make -s -C bindings/postgresql installcheck {named}"
    rows = f"LANGTAG_ROWS={by if is_rows else ''}"
    if language == "SQLite":
        test = f"test_sqlite.Sqlite.{'test_rows' if is_rows else by}"
        return f"{rows} EXTENSION=$PWD/sqlite_langtag.so PYTHONPATH=bindings/python:bindings/sqlite python3 -m unittest {test}"
    return f"cd bindings/python && {rows} python3 -m unittest {'test_rows' if is_rows else 'test_langtag.' + by}"


def tests(language: str) -> list[str]:
    """Returns the tests that have to pass without a fault: those that find one, and all rows."""
    named = sorted({fault.by for fault in FAULTS[language] if not fault.by.endswith(".txt")})
    return named if language == "Rust" else [""] if language == "PostgreSQL" else ["", *named]


class Copy:
    """A copy of the files that a language needs, in which faults are planted and the language's tests are built and run. The copy of
    another copy has what that one has built."""

    def __init__(self, language: str, libraries: pathlib.Path, built: Copy | None = None):
        self.language, self.libraries, self.folder = language, libraries, pathlib.Path(tempfile.mkdtemp())
        needed = "rust" if language == "Rust" else "bindings"
        shutil.copytree((built.folder if built else ROOT) / needed, self.folder / needed, ignore=LEFT_OUT)
        (self.folder / "vectors").symlink_to(ROOT / "vectors")
        self.environment = {**os.environ, "CFLAGS": "-w -O0", "LIBRARIES": str(libraries),
                            "TESTS": " ".join(sorted({program(test) for test in tests(language)})), "PYTHONDONTWRITEBYTECODE": "1"}
        self.environment.pop("LANGTAG_ANSWERS", None)

    def plant(self, fault: Fault) -> None:
        file = self.folder / fault.file
        text = file.read_text()
        _, start, end, new = fault.change(text)
        file.write_text(text[:start] + new + text[end:])

    def plant_switches(self) -> set[int]:
        """Plants each fault that can be behind a switch, and returns their numbers."""
        done: set[int] = set()
        faults = FAULTS[self.language]
        for name in sorted({fault.file for fault in faults if not fault.file.endswith(".py")}):
            file = self.folder / name
            text = file.read_text()
            changes = [fault.change(text, number) for number, fault in enumerate(faults, 1) if fault.file == name]
            text, here = switched(text, file.suffix, changes)
            if here:
                with_switch = {"Rust": text, "PostgreSQL": text.replace("PG_MODULE_MAGIC", POSTGRESQL + "PG_MODULE_MAGIC", 1)}
                file.write_text(with_switch.get(self.language, C + text))
            done |= here
        if self.language == "Rust":
            for name, more in ("lib.rs", RUST), ("bin/langtag/main.rs", "\nuse langtag::planted;\n"):
                file = self.folder / "rust/src" / name
                file.write_text(file.read_text().replace(FORBIDDEN, "") + more)
        return done

    def shell(self, words: str, switch: str = "") -> subprocess.CompletedProcess[str]:
        variables = {**self.environment, "PLANTED": switch, "PGOPTIONS": f"-c statement_timeout=5s -c langtag.planted={switch or 0}"}
        return subprocess.run(["sh", "-c", words], cwd=self.folder, env=variables, text=True, errors="replace", stdout=subprocess.PIPE,
                              stderr=subprocess.STDOUT)

    def build(self) -> str | None:
        """Builds the tests. Returns why they do not build, or None."""
        built = self.shell(BUILD.get(self.language, "true"))
        return f"does not build: {built.stdout[-2000:]}" if built.returncode != 0 else None

    def passes(self, by: str) -> str | None:
        """Runs a test without a fault, by the number of none. Returns why it does not pass, or None."""
        ran = self.shell(command(self.language, by), "0")
        return f"is refused without a fault: {by}: {ran.stdout[-2000:]}" if ran.returncode != 0 else None

    def refuses(self, fault: Fault, switch: str = "") -> str | None:
        """Runs the test that has to find a fault. Returns what differs from the expectation, or None."""
        ran = self.shell(command(self.language, fault.by), switch)
        if ran.returncode == 0:
            return f"PASSES: {fault.by}"
        said, *_ = ran.stdout.split("exited with exit code 2")  # the test that ended the server: the tests after it cannot connect
        said = re.sub(r"\bnot ok \d+ +- ", "not ok - ", said)  # node prints a number before each test
        said = re.sub(r"\btest (\w+) +\.\.\. FAILED", r"not ok - \1", said)  # PostgreSQL 15
        return None if fault.says in said else f"is refused, and not by {fault.says!r}: {ran.stdout[-2000:]}"

    def alone(self, fault: Fault) -> str | None:
        """Builds the language with one fault, and runs the test that has to find it. Returns what differs from the expectation, or None.
        A fault in SQL or Python needs no other module than this copy's, which has all faults behind switches."""
        copy = Copy(self.language, self.libraries, self if fault.file.endswith((".sql", ".py")) else None)
        try:
            copy.environment["TESTS"] = program(fault.by)
            copy.plant(fault)
            return (None if fault.file.endswith(".py") else copy.build()) or copy.refuses(fault)
        finally:
            shutil.rmtree(copy.folder)

    def to_be_asked(self, chosen: list[Fault]) -> list[tuple[str, Fault | None, Callable[[], str | None]]]:
        """Builds the language once with all faults that can be behind a switch. Returns the tests to run for some of its faults, each with
        its language, its fault if it has one, and what runs it and returns what differs from the expectation, or None."""
        switches = self.plant_switches() if self.language in BUILD else set()
        why = self.build()
        if why:
            return [(self.language, None, lambda: why)]
        asked = [(self.language, None, functools.partial(self.passes, by)) for by in tests(self.language)]
        for number, fault in sorted(enumerate(FAULTS[self.language], 1), key=lambda it: it[0] not in switches):
            ask = functools.partial(self.refuses, fault, str(number)) if number in switches else functools.partial(self.alone, fault)
            asked += [(self.language, fault, ask)] * (fault in chosen)
        if self.language == "PostgreSQL":  # the server still stands
            asked.append((self.language, None, lambda: self.build() or self.passes("")))
        return asked


# The tests that have to find the faults of a language, with the rows that they ask.
TESTS = {"C++": ["bindings/c/test/*.cc", "bindings/c/test/*.h"], "Python": ["bindings/python/*.py"],
         "JavaScript": ["bindings/js/test/*.js"], "PostgreSQL": ["bindings/postgresql/sql/*.sql"],
         "SQLite": ["bindings/sqlite/test_*.py", "bindings/python/rows.py"], "Rust": ["rust/tests/**/*.rs"]}


class Record:
    """For each language whose faults were all found: a hash of these, of the files that they change, of the tests, and of langtag_c."""

    def __init__(self, repository: str):
        self.repository = pathlib.Path(repository)
        self.path = self.repository / "bindings/wrong_wrappers.txt"
        lines = self.path.read_text().splitlines() if self.path.is_file() else []
        self.seen = dict(line.rsplit(" ", 1) for line in lines if not line.startswith("#"))

    def hash_of(self, language: str) -> str:
        found = hashlib.sha256(repr(FAULTS[language]).encode())
        read = [path for files in ("crates/langtag_c/src/**/*.rt", "vectors/*.txt", *TESTS[language]) for path in self.repository.glob(files)]
        for path in [*sorted({ROOT / fault.file for fault in FAULTS[language]}), *sorted(read)]:
            found.update(path.read_bytes())
        return found.hexdigest()[:12]

    def chosen(self, language: str) -> list[Fault]:
        """Returns the faults of a language that have to be planted."""
        if self.seen.get(language) != self.hash_of(language):
            return FAULTS[language]
        commit = subprocess.run(["git", "-C", self.repository, "rev-parse", "HEAD"], capture_output=True, text=True).stdout.strip()
        return FAULTS[language][int(commit or "0", 16) % 20 :: 20]

    def write(self, languages: set[str], bad: set[str]) -> None:
        self.seen = {language: hashed for language, hashed in self.seen.items() if language not in bad}
        self.seen |= {language: self.hash_of(language) for language in languages - bad}
        head = "# The languages whose planted faults were all found, each with a hash of what this depends on. wrong_wrappers.py --record writes it.\n"
        self.path.write_text(head + "".join(f"{language} {hashed}\n" for language, hashed in sorted(self.seen.items())))


def texts_that_are_not_there(languages: Iterable[str]) -> str:
    lost = [fault for language in languages for fault in FAULTS[language] if not fault.change((ROOT / fault.file).read_text())]
    return "\n".join(f"{fault.file}: the text is not there: {fault.line}" for fault in lost)


def main(record: Record | None, libraries: pathlib.Path, languages: list[str]) -> int:
    languages = languages or [language for language in FAULTS if language != "PostgreSQL"]
    if lost := texts_that_are_not_there(languages):
        sys.exit(lost)
    chosen = {language: record.chosen(language) if record else FAULTS[language] for language in languages}
    copies = [Copy(language, libraries) for language in languages if chosen[language]]
    try:
        with concurrent.futures.ThreadPoolExecutor(1 if languages == ["PostgreSQL"] else os.cpu_count()) as pool:  # there is one server
            asked = [it for more in pool.map(lambda copy: copy.to_be_asked(chosen[copy.language]), copies) for it in more]
            found = list(pool.map(lambda it: it[2](), asked))
    finally:
        for copy in copies:
            shutil.rmtree(copy.folder)
    bad = [(language, fault, what) for (language, fault, _), what in zip(asked, found) if what]
    for language, fault, what in bad:
        print(f"{language}: {f'{fault.file}: {fault.line}' if fault else 'no fault'}\n  {what}")
    if record:
        record.write({*languages}, {language for language, _, _ in bad})
    counts = ", ".join(f"{language} {len(chosen[language])} of {len(FAULTS[language])}" for language in languages)
    print(f"faults: {counts}; {len(bad)} of what was asked were amiss")
    return len(bad) > 0


if __name__ == "__main__":
    words = sys.argv[1:]
    if words == ["--texts"]:
        sys.exit(texts_that_are_not_there(FAULTS) or None)
    is_recorded = words[:1] == ["--record"]
    libraries, *languages = words[2:] if is_recorded else words
    sys.exit(main(Record(words[1]) if is_recorded else None, pathlib.Path(libraries).resolve(), languages))
