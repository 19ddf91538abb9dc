"""A report as plain text, as wide as the terminal."""

from __future__ import annotations

import sys
from collections.abc import Iterator, Sequence

from cca_tools.page.document import (
    Block,
    Card,
    Cards,
    Cell,
    Content,
    Figures,
    Fold,
    Heading,
    Links,
    Page,
    Picture,
    Points,
    Table,
    Words,
)
from cca_tools.page.html import parts
from cca_tools.terminal import columns_of, filled, padded
from cca_tools.terminal import width as terminal_width

# How wide the text is where it goes to a file.
WIDTH = 100


def columns_of_text() -> int:
    """How wide the text is."""
    return terminal_width(sys.stdout, WIDTH)


def cell_lines(cell: Content, width: int) -> list[str]:
    """The lines of a cell: its text, and after it the program's form if there is room."""
    words, code, _ = parts(cell)
    code = f"[{code}]" if words and code else code
    if isinstance(cell, Cell) and cell.details:
        rows = [f"{head}: {'; '.join(filter(None, values))}" for head, *values in cell.details]
        return [line for part in (words, *rows, code) for line in filled(part, width, later="  ")]
    whole = f"{words}  {code}" if words and code else words or code
    if columns_of(whole) <= width:
        return [whole]
    return [line for part in (words, code) for line in filled(part, width)]


def length(cell: Content) -> int:
    """How many columns a cell takes on one line."""
    words, code, _ = parts(cell)
    return columns_of(words) + (columns_of(code) + 4 if words and code else columns_of(code))


def wrapped(text: str, before: str = "") -> list[str]:
    """The lines of a paragraph, with a mark before the first."""
    return filled(text.replace("`", ""), columns_of_text(), before, " " * len(before)) or [""]


def widths_of(table: Table, cells: Sequence[Sequence[Content]]) -> list[int]:
    """The width of each column: as wide as its widest cell, and the widest columns of text and of names are made
    narrower until the table fits."""
    widths = [
        max([columns_of(column.head), *(length(row[i]) for row in cells)]) for i, column in enumerate(table.columns)
    ]
    words = [i for i, column in enumerate(table.columns) if column.kind != "number"]
    while sum(widths) + 2 * (len(widths) - 1) > columns_of_text() and max(widths[i] for i in words) > 12:
        widths[max(words, key=lambda i: widths[i])] -= 1
    return widths


def row_lines(table: Table, cells: Sequence[Content], widths: Sequence[int]) -> Iterator[str]:
    """The lines of a row."""
    columns = [cell_lines(cell, width) for cell, width in zip(cells, widths)]
    for line in range(max(map(len, columns))):
        places = (column[line] if line < len(column) else "" for column in columns)
        yield "  ".join(
            padded(place, width, to_right=column.kind == "number")
            for place, width, column in zip(places, widths, table.columns)
        ).rstrip()


def table_lines(table: Table) -> Iterator[str]:
    """The lines of a table, and an empty one."""
    widths = widths_of(table, table.rows)
    if table.title:
        yield table.title
    yield from row_lines(table, [column.head for column in table.columns], widths)
    yield "  ".join("-" * width for width in widths)
    for row in table.rows:
        yield from row_lines(table, row, widths)
    if table.note:
        yield from wrapped(table.note)
    yield ""


def block_lines(block: Block) -> Iterator[str]:
    """The lines of a block, and an empty one. What the marks of pictures mean isn't shown, since there are none."""
    if isinstance(block, Words):
        yield from [*wrapped(block.text), ""]
    elif isinstance(block, Links):
        yield from [*wrapped(f"{block.text} {', '.join(path for path, _ in block.links)}."), ""]
    elif isinstance(block, Points):
        yield from [*(line for item in block.items for line in wrapped(item, before="- ")), ""]
    elif isinstance(block, Heading):
        yield from [block.text, "-" * columns_of(block.text), ""]
    elif isinstance(block, Figures):
        width = max(columns_of(head) for head, _ in block.pairs)
        yield from [*(f"{padded(head, width)}  {value}" for head, value in block.pairs), ""]
    elif isinstance(block, (Table, Picture)):
        yield from table_lines(block.table if isinstance(block, Picture) else block)
    elif isinstance(block, Fold):
        title = block.title.partition(" (")[0]  # nothing has to be opened in a text
        yield from [title, "-" * columns_of(title), ""]
        for inner in block.blocks:
            yield from block_lines(inner)
    elif isinstance(block, Cards):
        for card in block.cards:
            yield from card_lines(card)


def card_lines(card: Card) -> Iterator[str]:
    """The lines of a card."""
    if card.title:
        yield from wrapped(f"{card.title}: {card.note}" if card.note else card.title)
    for block in card.blocks:
        yield from block_lines(block)


def text(page: Page) -> str:
    """The whole report."""
    lines = [page.title, "=" * columns_of(page.title), *wrapped(page.under), ""]
    for section in page.sections:
        lines += [section.title.upper(), "=" * columns_of(section.title), ""]
        lines += [*wrapped(f"{section.finding}."), ""] if section.finding else []
        for block in section.blocks:
            lines += block_lines(block)
    return "\n".join(lines).rstrip("\n").replace("\N{NO-BREAK SPACE}", " ")
