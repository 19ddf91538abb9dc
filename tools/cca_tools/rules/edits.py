"""The edits of a book in the form of `cca review`: how they are read, the reply to each, and the book after it."""

from __future__ import annotations

import dataclasses
from typing import Literal, TypeAlias, cast

from cca_tools.rules.book import Book
from cca_tools.rules.lines import Text
from cca_tools.rules.stops import MOST, within
from cca_tools.rules.types import Bid, Gross, Package

EditKind: TypeAlias = Literal["add", "raise", "drop"]
# Whether an edit has an amount.
FORMS = {b"add": True, b"raise": True, b"drop": False}


@dataclasses.dataclass(frozen=True)
class Edit:
    """An edit: its line in the file, its kind, the bidder's name, the package, and the amount (0 of a drop)."""

    row: int
    kind: EditKind
    name: str
    package: Package
    amount: Gross

    def text(self) -> str:
        """The line that states the edit."""
        words = [self.kind, self.name, *self.package, *([] if self.kind == "drop" else [self.amount])]
        return " ".join(map(str, words))


@dataclasses.dataclass(frozen=True)
class Refusal:
    """Why an edit is refused: the word and the numbers of the program, and a sentence."""

    word: str
    numbers: tuple[int, ...]
    why: str

    def text(self) -> str:
        """The refusal as the program prints it, without the edit's number."""
        return " ".join(map(str, [self.word, *self.numbers]))


def read_edits(data: bytes, book: Book) -> list[Edit]:
    """The edits that bytes are, for this book."""
    text, edits = Text("edits", data), list[Edit]()
    text.words("edits 1")
    while (fields := text.line().split(b" ")) != [b"end"]:
        edits.append(read_edit(text, fields, len(book.supply)))
        within("records", len(edits), MOST["edits"])
    text.no_more()
    return edits


def read_edit(text: Text, fields: list[bytes], categories: int) -> Edit:
    """The edit of a line."""
    text.need(fields[0] in FORMS, "here a line `add ..`, `raise ..`, `drop ..` or `end` has to be")
    kind, has_amount = cast(EditKind, fields[0].decode()), FORMS[fields[0]]
    size = 2 + categories + has_amount
    text.need(len(fields) == size, f"an edit `{kind}` has {size} fields in this book, and this line has {len(fields)}")
    name = text.name(fields[1])
    package = tuple(text.number(field, 0, MOST["count"], "a count") for field in fields[2 : 2 + categories])
    amount = text.number(fields[-1], 0, MOST["draft amount"], "an amount") if has_amount else 0
    return Edit(text.row, kind, name, package, Gross(amount))


def refusal_of(book: Book, edit: Edit) -> Refusal | None:
    """The first reason to refuse an edit of this book, in the order of docs/FORMATS.md, or None."""
    if edit.name not in book.names:
        return Refusal("unknown", (), f"The book has no bidder {edit.name}.")
    for category, (count, supply) in enumerate(zip(edit.package, book.supply), 1):
        if count > supply:
            why = (
                f"The package has {count} lots of category {category}, and"
                f" {supply} {'is' if supply == 1 else 'are'} sold."
            )
            return Refusal("supply", (category,), why)
    if not any(edit.package):
        return Refusal("empty", (), "A package of nothing is no bid.")
    bids = dict(book.bids[book.names.index(edit.name)])
    return {"add": add_refusal, "raise": raise_refusal, "drop": drop_refusal}[edit.kind](book, edit, bids)


def add_refusal(book: Book, edit: Edit, bids: dict[Package, Gross]) -> Refusal | None:
    """Why a bid can't be added to these bids of its bidder."""
    reserve = book.reserve(edit.package)
    if edit.package in bids:
        amount = bids[edit.package]
        return Refusal("present", (amount,), f"{edit.name} has a bid of {amount} for this package; `raise` changes it.")
    if edit.amount < reserve:
        why = f"The reserves of the package come to {reserve}, and {edit.amount} is less."
        return Refusal("below-reserve", (reserve,), why)
    if edit.amount > MOST["amount"]:
        return amount_top()
    if len(bids) >= MOST["bids"]:
        return Refusal("full", (MOST["bids"],), f"{edit.name} has {MOST['bids']} bids, and no bidder may have more.")
    return None


def raise_refusal(book: Book, edit: Edit, bids: dict[Package, Gross]) -> Refusal | None:
    """Why one of these bids of a bidder can't be raised."""
    if edit.package not in bids:
        return absent(edit)
    amount = bids[edit.package]
    if edit.amount <= amount:
        why = f"The bid for this package is {amount}, and {edit.amount} isn't above it."
        return Refusal("not-higher", (amount,), why)
    return amount_top() if edit.amount > MOST["amount"] else None


def drop_refusal(book: Book, edit: Edit, bids: dict[Package, Gross]) -> Refusal | None:
    """Why one of these bids of a bidder can't be dropped."""
    return None if edit.package in bids else absent(edit)


def absent(edit: Edit) -> Refusal:
    """The refusal if the bidder has no bid for the package."""
    return Refusal("absent", (), f"{edit.name} has no bid for this package; `add` makes one.")


def amount_top() -> Refusal:
    """That the amount is above the greatest one."""
    return Refusal("amount-top", (MOST["amount"],), f"The amount is above the greatest one, {MOST['amount']}.")


def edited(book: Book, edit: Edit) -> Book:
    """The book after an edit that isn't refused."""
    place = book.names.index(edit.name)
    bids = dict(book.bids[place])
    if edit.kind == "drop":
        del bids[edit.package]
    else:
        bids[edit.package] = edit.amount
    return with_bids(book, place + 1, sorted(bids.items()))


def with_bids(book: Book, j: int, bids: list[Bid]) -> Book:
    """The book with these bids of bidder j."""
    return Book(book.supply, book.reserves, book.names, [*book.bids[: j - 1], bids, *book.bids[j:]])
