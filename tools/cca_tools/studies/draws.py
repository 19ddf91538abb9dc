"""Numbers that are drawn from a seed: they are the same on every machine and in every version of Python.

Each draw has a name of its own, such as `7/north/lot/2/1`, and is computed only from that: it is the SHA-256 of the
name, read as one number, modulo the size of the range. So no draw depends on how many others were made before it: the
values of a bidder stay as they are when another one joins.
"""

from __future__ import annotations

import hashlib
from dataclasses import dataclass


@dataclass(frozen=True)
class Draws:
    """Draws whose names begin with the same words."""

    name: str

    def of(self, *words: object) -> Draws:
        """The draws whose names continue this one with these words."""
        return Draws("/".join([self.name, *map(str, words)]))

    def whole(self, low: int, high: int) -> int:
        """A whole number of this range, both ends in it."""
        drawn = int.from_bytes(hashlib.sha256(self.name.encode()).digest(), "big")
        return low + drawn % (high - low + 1)


def draws_of(seed: int) -> Draws:
    """All draws of a seed."""
    return Draws(str(seed))
