"""Compares the comments of a source with those of the module that is made from it, as words. Each doc comment of the source is in the
module, in the same order, with the same code blocks and as many assertions. Each other comment of the module is in the source."""
import re

from compare import Difference
from words import WORD

# What the eraser adds to the doc comments of functions that have a condition in Rattle, or whose users differ in Rust.
ADDED = (
    "Panics if `index` is not less than `len()`.",
    "A source that counts wrongly or that changes its bytes gets a wrong answer or a panic, and nothing worse.",
    "The error borrows the string. A function that drops the string and returns the error calls "
    "`text.parse::<LangTagBuf>()?`, or `LangTag::new(text).map_err(InvalidLangTag::into_owned)?`.",
)
SECTION = r"RFC\s+(\d+)\s+section\s+([\d.]*\d)"
TARGET = re.compile(rf"\[{SECTION}\]: (\S+)")
PATH = re.compile(r"(?:\b(?:crate|langtag\w*)::)(?:[a-z_]+::)*(?=[\w{])")
# A claim that becomes an assertion if the doc comment has no code block: `: \`call\` is \`value\`.`
CLAIM = re.compile(r":\s`([A-Z]\w*::[^`]+)`\sis\s`([^`]+)`\.")
# A value in a comment behind an expression becomes an assertion.
VALUE = re.compile(r"""^(?!\s*let )[^"]*(?:"[^"]*"[^"]*)*;\s+// (?:b?["']|\d|true\b|false\b|None\b|(?:Some|Ok|Err)?\(|[A-Z]\w*::\w)""")
ASSERTION, ALWAYS = re.compile(r"\bassert\w*!"), re.compile(r"\bassert(?:_eq)?!\(\s*(?:true|(.+?)(?:,\s*| == )\1),?\s*\)")


class Doc:
    """A doc comment: its words outside of code blocks, and the words after ``` and the number of assertions of each code block."""

    def __init__(self, line, counted):
        self.line, self.counted, self.text, self.fences, self.is_code, self.code = line, counted, [], [], False, ""

    def add(self, text):
        if text.strip().startswith("```"):
            self.is_code, self.code = not self.is_code, ""
            if self.is_code:
                self.fences.append([text.strip()[3:], 0])
        elif self.is_code:
            self.code += text.strip()
            if ALWAYS.search(self.code):
                raise Difference(f"line {self.line}: an assertion is always true: {text.strip()}")
            self.fences[-1][1] += any(form.search(text) for form in ((ASSERTION, VALUE) if self.fences[-1][0] else self.counted))
        else:
            self.text.append(text.strip())

    def words(self):
        return words_in("\n".join(self.text))

    def take_claims(self):
        """Removes the claims of a doc comment without a code block, which become one."""
        text, count = "\n".join(self.text), 0
        if not self.fences:
            text, count = CLAIM.subn(".", text)
        if count:
            self.text, self.fences = [text], [["", count]]


def words_in(text):
    return re.sub(rf"\[({SECTION}|`[\w:]+`)\]", r"\1", PATH.sub("", text)).split()


def docs_of(text, counted):
    """Returns the doc comments of a file, and the words of its other comments with their lines."""
    docs, others, last = [], [], 0
    for number, line in enumerate(text.splitlines(), 1):
        mark = re.match(r"\s*(//[/!])(?!/)(.*)", line)
        if mark:
            if last != number - 1 or not docs or docs[-1].mark != mark[1]:
                docs.append(Doc(number, counted))
                docs[-1].mark = mark[1]
            docs[-1].add(mark[2])
            last = number
        elif comment := comment_of(line):
            others.append((number, comment))
    return docs, others


def comment_of(line):
    """Returns the text of a `//` comment, which is not within a string."""
    return next((found[0][2:] for found in WORD.finditer(line) if found[0].startswith("//")), None)


def compare_comments(source, module):
    old, old_others = docs_of(source, (ASSERTION, VALUE))
    new, new_others = docs_of(module, (ASSERTION,))
    for doc in old:
        doc.take_claims()
    for doc in new:
        without_additions(doc)
    for before, after in zip(old, new):
        compare_docs(before, after)
    if len(old) != len(new):
        raise Difference(f"{len(old)} doc comments are {len(new)}")
    known = {tuple(words_in(text)) for _, text in old_others}
    for line, text in new_others:
        if line > 1 and tuple(words_in(text)) not in known:
            raise Difference(f"a comment that the source has not: `{text}` line {line}")


def without_additions(doc):
    """Removes the targets of links to RFCs, which have to be right, and the sentences that the eraser adds."""
    for line in doc.text:
        if (found := TARGET.fullmatch(line)) and found[3] != f"https://www.rfc-editor.org/rfc/rfc{found[1]}#section-{found[2]}":
            raise Difference(f"a link to another section: {line}")
    text = "\n".join(line for line in doc.text if not TARGET.fullmatch(line))
    for sentence in ADDED:
        text = re.sub(r"\s+".join(map(re.escape, sentence.split())), "", text)
    doc.text = [text]


def compare_docs(old, new):
    if old.words() != new.words():
        at = next((at for at, (a, b) in enumerate(zip(old.words(), new.words())) if a != b), min(len(old.words()), len(new.words())))
        raise Difference(f"line {old.line}: the comment `{' '.join(old.words()[at:at + 8])}` is `{' '.join(new.words()[at:at + 8])}` line {new.line}")
    if old.fences != new.fences:
        raise Difference(f"line {old.line}: the examples {old.fences} are {new.fences} line {new.line}: each has its marks and its assertions")
