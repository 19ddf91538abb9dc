"""The parts of a report. A page is made from them, and a text for a terminal. In texts `so` marks what is in the
program's form."""

from __future__ import annotations

from collections.abc import Callable, Sequence
from dataclasses import dataclass
from typing import Literal, TypeAlias

Tone: TypeAlias = Literal["", "good", "bad", "strong"]


@dataclass(frozen=True)
class Cell:
    """A cell of a table: its text, the text in the program's form, whether it is good, bad or set off, and the details
    that explain the text, as rows of a small table, each with its head."""

    words: str
    code: str = ""
    tone: Tone = ""
    details: tuple[tuple[str, ...], ...] = ()


# A cell may be a plain text.
Content: TypeAlias = Cell | str
ColumnKind: TypeAlias = Literal["words", "number", "key"]


@dataclass(frozen=True)
class Column:
    """A column of a table by its head. Numbers are set to the right; the key is the head of its row."""

    head: str
    kind: ColumnKind = "words"


def columns(first: str, *others: str) -> list[Column]:
    """The columns of a table by their heads: the first is the head of its row, and those that end in # are numbers."""
    return [
        Column(first, "key"),
        *(Column(head.removesuffix(" #"), "number" if head.endswith(" #") else "words") for head in others),
    ]


@dataclass
class Table:
    """A table, with a cell for each column in each row."""

    title: str
    columns: list[Column]
    rows: Sequence[Sequence[Content]]
    note: str = ""
    is_full: bool = False  # takes all the room there is
    is_result: bool = False  # has two lines for each winner if there is little room

    @property
    def is_long(self) -> bool:
        """Whether it has a frame of its own that scrolls."""
        return len(self.rows) > 24 and not self.is_full

    @property
    def is_late(self) -> bool:
        """Whether a browser may put it together only when it comes into sight."""
        return len(self.rows) > 90 and self.is_full


@dataclass
class Picture:
    """A picture, drawn when a page is made, with the table that says the same."""

    title: str
    about: str
    draw: Callable[[], str]
    table: Table
    caption: str = ""  # replaces the title in a card whose head already says what the picture is about


@dataclass
class Words:
    """A paragraph."""

    text: str
    tone: Tone = ""


@dataclass
class Links:
    """A paragraph of links to files in the page's folder: the text before them, and the path and label of each."""

    text: str
    links: Sequence[tuple[str, str]]


@dataclass
class Points:
    """A list of sentences."""

    items: list[str]


@dataclass
class Figures:
    """A few numbers that are seen first, each with its name."""

    pairs: list[tuple[str, str]]

    @property
    def longest(self) -> int:
        """The letters of the longest number."""
        return max(len(value) for _, value in self.pairs)


@dataclass
class Key:
    """What the marks of the pictures below mean: the colour, the shape and the label of each. `reading` says how to
    read such a picture, and comes before them."""

    marks: list[tuple[str, str, str]]
    reading: str = ""


@dataclass
class Card:
    """Blocks that belong together, with a title."""

    title: str
    blocks: Sequence[Block]
    note: str = ""

    @property
    def is_short(self) -> bool:
        """Whether it has room on a printed page, so that it isn't broken there."""
        tables = [getattr(block, "table", block) for block in self.blocks]
        return sum(len(getattr(table, "rows", ())) for table in tables) <= 14


@dataclass
class Cards:
    """Blocks of one kind, side by side if there is room."""

    cards: list[Card]
    size: Literal["", "mid", "wide", "full"] = ""


@dataclass
class Fold:
    """Blocks that a page shows once its reader opens them; a page is printed with them only then."""

    title: str
    blocks: Sequence[Block]


@dataclass
class Heading:
    """A heading within a section."""

    text: str


Block: TypeAlias = Table | Picture | Words | Links | Points | Figures | Key | Cards | Fold | Heading


@dataclass
class Section:
    """A section of a report, with the key that links of a page use, and what its numbers say in a sentence."""

    key: str
    title: str
    blocks: Sequence[Block]
    finding: str = ""


@dataclass
class Page:
    """A whole report. Its foot is below each page that is printed."""

    title: str
    under: str
    sections: list[Section]
    foot: str = ""
