"""What the C module and the Python code share: the conversion of texts to bytes, and the words of their errors."""
from __future__ import annotations

from typing import NoReturn, Union

Text = Union[str, bytes]

_EXPECTED = {"text": "str or bytes", "tag": "a Tag, str or bytes", "range": "a Range, a Tag, str or bytes"}


def bytes_of(text: Text, expected: str = "text") -> bytes:
    """Returns the text as bytes of the type bytes itself, since a subclass of str or bytes may have its own `encode` or length."""
    if isinstance(text, str):
        return str.encode(text, "utf-8", "surrogatepass")  # a lone surrogate becomes bytes that no tag has
    if isinstance(text, bytes):
        return text if type(text) is bytes else bytes(memoryview(text))
    wrong_type(text, expected)


def wrong_type(value: object, expected: str) -> NoReturn:
    """Raises TypeError for a value that is not a "text", "tag" or "range"."""
    raise TypeError(f"expected {_EXPECTED[expected]}, got {type(value).__name__}")


def not_a_tag(text: Text) -> None:
    """Raises InvalidTag for a text that is not a tag."""
    from . import Tag

    Tag(text)


def unchangeable(name: str) -> NoReturn:
    """Raises the error of a value that would change, such as a Tag whose __init__ is called again."""
    raise AttributeError(f"a {name} does not change")


def uninitialized(value: object) -> NoReturn:
    """Raises the error of a Tag or a Range whose __init__ was not called."""
    raise AttributeError(f"{type(value).__name__}.__init__() was not called")
