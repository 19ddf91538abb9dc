"""What grows: an input in a dimension, and parts of the texts."""

from __future__ import annotations

from collections.abc import Callable
from typing import NamedTuple

# The beginnings of the dimensions whose texts within the limits have the form of their input and aren't refused in
# reading.
TAKEN = (
    *("bytes of a comment", "bidders", "records", "quoted records", "rounds", "bids of", "states", "places of"),
    *("edits", "entries", "lines", "torn lines", "rows of", "objects of", "spaces", "posted lines", "cuts"),
    *("packages of", "complements of", "names of", "pairs of", "auctions", "cases", "drafts", "files"),
)


class Grown(NamedTuple):
    """An input that grows in a dimension: the text of each size, and the greatest size within the limits, or why the
    greatest size that is measured is less than that."""

    input: str
    dimension: str
    most: int
    text: Callable[[int], bytes]
    cap: str = ""

    def is_taken(self) -> bool:
        """Whether a tool does more with a text within the limits than to read it."""
        return self.dimension.startswith(TAKEN)

    def limit(self, most: int) -> str:
        """The greatest size that is measured, and why it isn't the limit, if so."""
        return f"{most:,} (a cap: {self.cap})" if self.cap and most == self.most else f"{most:,}"


def numbered(form: bytes, count: int) -> bytes:
    """The form for each number below a count."""
    return b"".join(form % number for number in range(count))


def between(head: bytes, text: Callable[[int], bytes], end: bytes) -> Callable[[int], bytes]:
    """The texts that have another text before and after them."""
    return lambda size: head + text(size) + end
