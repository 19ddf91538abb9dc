"""Texts of files as they are shown: no control character of a file reaches a terminal or a page."""

from __future__ import annotations

import re

# Control characters, those that change the direction of what is around them, and halves of characters.
HIDDEN = re.compile(r"[\x00-\x1f\x7f-\x9f\u200e\u200f\u2028-\u202e\u2066-\u2069\ufeff\ud800-\udfff]")


def printable(text: str) -> str:
    """The text with an escape, as Python has it, for each character that isn't to reach a terminal."""
    return HIDDEN.sub(lambda found: repr(found[0])[1:-1], text)


def clipped(text: str, most: int = 100) -> str:
    """The beginning of what was read, so that it has room on a line, with an escape for each character that can't be
    seen."""
    seen = "".join(letter if letter.isprintable() else repr(letter)[1:-1] for letter in text[: most + 1])
    return seen if len(text) <= most else seen[:most] + ".."


def shown(data: bytes) -> str:
    """The beginning of bytes that were read."""
    return clipped(data[:1000].decode("utf-8", "replace"))
