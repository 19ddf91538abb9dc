"""The weights of the bidders of a book: bidders share what is above their Vickrey prices by them."""

from __future__ import annotations

from cca_tools.rules.book import Book
from cca_tools.rules.lines import Text
from cca_tools.rules.stops import MOST


def read_weights(data: bytes, book: Book) -> list[int]:
    """A weight for each bidder."""
    text = Text("weights", data)
    text.words("weights 1")
    weights = [read_weight(text, name) for name in book.names]
    text.words("end")
    text.no_more()
    return weights


def read_weight(text: Text, name: str) -> int:
    """The weight of the next line, which has to be of this bidder."""
    fields = text.line().split(b" ")
    right = len(fields) == 3 and fields[:2] == [b"weight", name.encode()]
    text.need(right, f"here a line `weight {name} ..` has to be")
    return text.number(fields[2], 1, MOST["weight"], "a weight")
