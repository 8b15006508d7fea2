"""Source text as a list of tokens, which rules search and change.

A token keeps the white space and the comments before it, doc comments too, so that rules see only code. rustfmt sets the layout.
"""
import re

TOKEN = re.compile(
    r"""(?P<before>(?:\s+|//[^\n]*|/\*.*?\*/)*)
    (?: (?P<text>b?r(?P<hashes>\#*)".*?"(?P=hashes)|b?"(?:[^"\\]|\\.)*"|b?'(?:[^'\\\n]|\\(?:x..|u\{[0-9a-fA-F]+\}|.))')
    | (?P<lifetime>'[A-Za-z_]\w*)
    | (?P<word>[A-Za-z_]\w*)
    | (?P<number>[0-9]\w*(?:\.[0-9]\w*)?)
    | (?P<mark>\S)
    | (?P<end>\Z))""",
    re.DOTALL | re.VERBOSE,
)
CLOSING = {"(": ")", "[": "]", "{": "}"}


class Token:
    def __init__(self, before, kind, text):
        self.before, self.kind, self.text = before, kind, text


def lex(text):
    """Returns the tokens of a text. The last token is the end, with the text after all other tokens."""
    tokens, end = [], 0
    while not tokens or tokens[-1].kind != "end":
        found = TOKEN.match(text, end)
        tokens.append(Token(found["before"], found.lastgroup, found[found.lastgroup]))
        end = found.end()
    return tokens


def words_of(text):
    return [token.text for token in lex(text)[:-1]]


class Code:
    """The tokens of a file. A place is the index of a token."""

    def __init__(self, text):
        self.tokens = lex(text)

    def __str__(self):
        out, last = [], None
        for token in self.tokens:
            glued = last and not token.before and last.kind in ("word", "number", "lifetime") and token.kind in ("word", "number")
            out += [" " if glued else "", token.before, token.text]
            last = token
        return "".join(out)

    def __len__(self):
        return len(self.tokens) - 1

    def __getitem__(self, place):
        """Returns the text of a token, and an empty one outside the file."""
        return self.tokens[place].text if 0 <= place < len(self.tokens) else ""

    def text_of(self, start, end):
        """Returns the text of some code, without the space and comments before it."""
        first, *others = self.tokens[start:end]
        return first.text + "".join(token.before + token.text for token in others)

    def at(self, place, *texts):
        """Returns whether the code continues with these tokens."""
        return all(self[place + offset] == text for offset, text in enumerate(texts))

    def find(self, code, start=0, end=None):
        """Returns the first place from `start` on where the code continues with these tokens, or -1."""
        texts = words_of(code)
        for place in range(start, len(self) if end is None else end):
            if self.tokens[place].text == texts[0] and self.at(place, *texts):
                return place
        return -1

    def words(self, start=0, end=None):
        return {token.text for token in self.tokens[start:end] if token.kind == "word"}

    def after(self, place):
        """Returns the place after a token, or after the group that it opens."""
        if self[place] not in CLOSING or self.tokens[place].kind != "mark":
            return place + 1
        depth = 0
        while True:
            if self.tokens[place].kind == "mark":
                depth += (self[place] in CLOSING) - (self[place] in CLOSING.values())
            place += 1
            if depth == 0:
                return place

    def next_of(self, marks, place):
        """Returns the first place from here on, outside of all groups, that has one of these tokens."""
        while self[place] not in marks:
            if not self[place]:
                raise ValueError(f"no {' or '.join(marks)}")
            place = self.after(place)
        return place

    def replace(self, start, end, code):
        """Replaces tokens by code, and returns the place after it. The space and comments before the tokens stay."""
        new = lex(code)[:-1]
        if new:
            new[0].before = self.tokens[start].before
            if start == end:
                self.tokens[start].before = re.search(r"\s*$", code)[0] or " "
            self.tokens[start:end] = new
        else:
            self.tokens[end].before = joined(self.tokens[start].before, self.tokens[end].before)
            del self.tokens[start:end]
        return start + len(new)

    def drop(self, start, end):
        """Removes tokens, with the comments that belong to them."""
        self.tokens[end].before = kept(self.tokens[start].before) + self.tokens[end].before
        del self.tokens[start:end]

    def add_behind(self, place, code):
        """Adds code after a token, before the comments of the next token."""
        self.tokens[place + 1 : place + 1] = lex(code)[:-1]

    def rewrite(self, old, new, start=0):
        """Replaces one form by another everywhere. `$a` stands for any tokens with balanced brackets."""
        place, pattern = start, words_of(old)
        while (place := self.find(pattern[0], place)) >= 0:
            found = self.match(pattern, place)
            if not found:
                place += 1
                continue
            behind, taken = found
            place = self.replace(place, behind, filled(new, taken))

    def match(self, pattern, place):
        """Returns where a form that begins here ends, and what its variables stand for."""
        taken, at = {}, 0
        while at < len(pattern):
            if pattern[at] == "$":
                end = self.next_of((pattern[at + 2],), place)
                taken[pattern[at + 1]] = "".join(token.before + token.text for token in self.tokens[place:end])
                place, at = end, at + 2
            elif self[place] == pattern[at]:
                place, at = place + 1, at + 1
            else:
                return None
        return place, taken


def filled(form, taken):
    return re.sub(r"\$(\w+)", lambda it: taken[it[1]], form)


def joined(first, second):
    """Returns the text before a token after the tokens before it were removed: all comments, and the wider space."""
    if second.strip():
        return first.rstrip() + second if first.strip() else second
    if first.strip():
        return first if second.count("\n") < 2 else first.rstrip() + second
    return max(first, second, key=lambda space: space.count("\n"))


def kept(before):
    """Returns the comments before a removed token that stay: those of the file, and a comment that ends the line before."""
    lines = before.split("\n")
    stays = [line for line in lines if line.lstrip().startswith("//!")]
    if re.match(r"\s*//(?![/!])", lines[0]):
        stays.insert(0, lines[0])
    return "".join(line + "\n" for line in stays)
