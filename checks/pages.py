"""Reads pages in Markdown."""
import re

# A block of code between fences, or indented after an empty line.
BLOCK = re.compile(r"(?m)^```(\w*).*\n((?:(?!```).*\n)*)```.*\n|(?<=\n\n)(?: {4}.*\n)+")


def parts_of(text):
    """Returns the blocks of code and the lines of text of a page, in order: line number, language (None for text), content."""
    number, at, text = 1, 0, text + "\n"
    for found in [*BLOCK.finditer(text), None]:
        lines = text[at : found.start() if found else len(text)].split("\n")[:-1]
        yield from ((number + count, None, line) for count, line in enumerate(lines))
        number += len(lines)
        if found:
            code = re.sub("(?m)^ {4}", "", found[0]) if found[2] is None else found[2]
            yield number, found[1] or "text", code.rstrip("\n")
            number, at = number + found[0].count("\n"), found.end()
