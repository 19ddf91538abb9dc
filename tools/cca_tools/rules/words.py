"""Words of a command line that aren't names of files."""

from __future__ import annotations

import re
from collections.abc import Sequence

from cca_tools.rules.award import Award
from cca_tools.rules.stops import MOST, WORDS, Stop
from cca_tools.rules.types import BidderNumber, Package

NUMBER = re.compile(r"0|[1-9][0-9]{0,18}")


def package_of(words: Sequence[str], award: Award) -> Package:
    """The package that arguments state: a number of lots for each category, in one argument or in several."""
    fields, size = " ".join(words).split(), len(award.categories)
    right = len(fields) == size and all(NUMBER.fullmatch(field) and int(field) <= MOST["count"] for field in fields)
    if not right:
        categories = " ".join(category.name for category in award.categories)
        why = f"a package is one count for each category, here {size} ({categories}), and `{' '.join(words)}` isn't"
        raise Stop("cca: words", WORDS, why=why)
    return tuple(map(int, fields))


def bidder_of(name: str, award: Award) -> BidderNumber:
    """The number of the bidder that a word names."""
    if not award.number_of(name):
        bidders = ", ".join(award.names) or "none"
        raise Stop("cca: words", WORDS, why=f"the award has no bidder `{name}`; its bidders are {bidders}")
    return award.number_of(name)
