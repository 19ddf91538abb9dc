"""Tables of the desk's pages, as plain values without markup."""

from __future__ import annotations

from collections.abc import Sequence
from dataclasses import dataclass
from typing import Literal, TypeAlias

Tone: TypeAlias = Literal["", "soft", "warm", "good", "bad"]
NONE = "\N{EN DASH}"


@dataclass(frozen=True)
class Cell:
    """A cell of a table: its text, a smaller one below, and where it leads to."""

    text: str
    note: str = ""
    tone: Tone = ""
    link: str = ""


@dataclass(frozen=True)
class Column:
    """The head of a column."""

    head: str
    note: str = ""
    is_number: bool = True


@dataclass(frozen=True)
class Row:
    """A row: the first cell is its head. `notes` are sentences below it over the whole width."""

    cells: Sequence[Cell]
    tone: Literal["", "soft", "next"] = ""
    notes: Sequence[str] = ()


@dataclass(frozen=True)
class Table:
    """A table with its caption."""

    caption: str
    columns: Sequence[Column]
    rows: Sequence[Row]

    @property
    def has_blocks(self) -> bool:
        """Whether each row is a block of cells on a phone, which has no room for so many columns or for packages."""
        has_words = sum(not column.is_number for column in self.columns) > 1
        return len(self.columns) > (4 if has_words else 5)
