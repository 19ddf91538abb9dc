"""A report as one page for a browser: no network, no script, and no library to make it."""

from __future__ import annotations

import pathlib
from collections.abc import Iterator
from html import escape
from itertools import count

from cca_tools.page.document import (
    Block,
    Card,
    Cards,
    Cell,
    Column,
    Content,
    Figures,
    Fold,
    Heading,
    Key,
    Links,
    Page,
    Picture,
    Points,
    Section,
    Table,
    Words,
)
from cca_tools.page.ink import page_rules, variables
from cca_tools.rules.names import written

TEMPLATES = pathlib.Path(__file__).parent / "templates"


def kind(block: Block) -> str:
    """The name of a kind of block."""
    return type(block).__name__.lower()


def marked(text: str) -> str:
    """The text as markup, with what is between two ` in the program's form."""
    if "`" not in text:
        return written(text)
    every = [escape(part) if i % 2 else written(part) for i, part in enumerate(text.split("`"))]
    return "".join(f"<code>{part}</code>" if i % 2 else part for i, part in enumerate(every))


def parts(cell: Content) -> tuple[str, str, str]:
    """Words, form and tone of a cell, which may be a plain text."""
    return (cell.words, cell.code, cell.tone) if isinstance(cell, Cell) else (cell, "", "")


# The widest letter that is usual in tables, in units of 16 pixels, and the widths of stack.css.
LETTER, STACKS = 0.56, (22, 28, 36, 42, 48, 62)
# The most letters of a row's head that stays on one line; the head of several bidders has more.
MOST_KEY = 16


def wraps(table: Table) -> bool:
    """Whether the heads of rows may take several lines, since one of them is too long for one."""
    return any(len(parts(row[0])[0]) > MOST_KEY for row in table.rows)


def least_width(table: Table, i: int, column: Column) -> int:
    """How wide a column is at least: numbers and short heads of rows are on one line, and words break between words."""
    texts = [
        column.head if column.kind == "words" else max(column.head.split(" "), key=len),
        *(parts(row[i])[0] for row in table.rows),
    ]
    if column.kind == "number" or column.kind == "key" and not wraps(table):
        return max(map(len, texts))
    longest = max((len(word) for text in texts for word in text.split(" ")), default=0)
    return max(longest, min(14, max(map(len, texts))))


def stack(table: Table) -> str:
    """The class of a table whose cells are one below the other if there is too little room; empty if it always has
    room."""
    if table.is_full or table.is_result:
        return "lines" if table.is_full else "result"
    letters = sum(least_width(table, i, column) + 1 for i, column in enumerate(table.columns))
    width = LETTER * letters
    return "" if width <= 18 else f"stack{next((it for it in STACKS if it >= width), STACKS[-1])}"


def details(cell: Cell) -> str:
    """The details that explain the text of a cell."""
    rows = (
        f'<tr><th scope="row">{written(head)}</th>{"".join(f"<td>{written(value)}</td>" for value in values)}</tr>'
        for head, *values in cell.details
    )
    return f'<table class="details" aria-label="how that is worked out"><tbody>{"".join(rows)}</tbody></table>'


def frames(table: Table, name: str) -> list[tuple[str, str]]:
    """For each column what comes before the tone of a cell, and after it. Where cells may be one below the other,
    each has its head and its role."""
    made, key = [], "key wraps" if wraps(table) else "key"
    for column in table.columns:
        is_key = column.kind == "key"
        tag, role = ('th scope="row"', "rowheader") if is_key else ("td", "cell")
        more = f' role="{role}" data-head="{escape(column.head)}"' if name else ""
        made.append((f'<{tag}{more} class="{key if is_key else column.kind}', "</th>" if is_key else "</td>"))
    return made


def cell_text(cell: Content) -> str:
    """What a cell has."""
    if not isinstance(cell, Cell):
        return f"<span>{marked(cell)}</span>" if cell else ""
    told = f"<span>{marked(cell.words)}</span>" if cell.words else ""
    code = f"<code>{escape(cell.code)}</code>" if cell.code else ""
    return f"{told}{details(cell)}{code}" if cell.details else told + code


def tone_of(cell: Content) -> str:
    """The class of a cell that is good, bad or strong, after its column's class."""
    return f" {cell.tone}" if isinstance(cell, Cell) and cell.tone else ""


def row_texts(table: Table, name: str) -> Iterator[str]:
    """The rows of a table."""
    role, every = ' role="row"' if name else "", frames(table, name)
    for row in table.rows:
        cells = "".join([f'{start}{tone_of(cell)}">{cell_text(cell)}{end}' for (start, end), cell in zip(every, row)])
        yield f"<tr{role}>{cells}</tr>\n"


def table_texts(table: Table, number: int) -> Iterator[str]:
    """A table, in a frame of its own if it is long."""
    name = stack(table)
    group, row, head = (f' role="{it}"' if name else "" for it in ("rowgroup", "row", "columnheader"))
    label = "" if table.title else f' aria-label="{escape(table.columns[1].head)}"'
    region = f' tabindex="0" role="region" aria-label="{escape(table.title or "lines")}"' if table.is_long else ""
    yield f'<div class="scroll{" long" * table.is_long}{" late" * table.is_late}"{region}>\n'
    named = f' class="{name}" role="table"' if name else ""
    yield f'<table id="t{number}"{named}{label}>\n'
    if table.title:
        yield f"<caption>{written(table.title)}</caption>\n"
    heads = (f'<th scope="col"{head} class="{it.kind}">{escape(it.head)}</th>' for it in table.columns)
    yield f"<thead{group}><tr{row}>{''.join(heads)}</tr></thead>\n<tbody{group}>\n"
    yield from row_texts(table, name)
    yield "</tbody>\n</table>\n</div>\n"
    if table.note:
        yield f'<p class="note">{marked(table.note)}</p>\n'


class Writer:
    """Writes the blocks of a page, and numbers its tables."""

    def __init__(self) -> None:
        self.numbers = count(1)
        self.card_level = 3  # of the titles of cards: below the heading before them

    def block(self, block: Block) -> Iterator[str]:
        """A block of a section or of a card."""
        if isinstance(block, Words):
            named = f' class="{block.tone}"' if block.tone else ""
            yield f"<p{named}>{marked(block.text)}</p>\n"
        elif isinstance(block, Links):
            every = [f'<a href="{escape(path)}">{escape(words)}</a>' for path, words in block.links]
            yield f"<p>{escape(block.text)} {', '.join(every)}.</p>\n"
        elif isinstance(block, Points):
            yield f"<ul>{''.join(f'<li>{marked(item)}</li>' for item in block.items)}</ul>\n"
        elif isinstance(block, Heading):
            self.card_level = 4
            yield f"<h3>{written(block.text)}</h3>\n"
        elif isinstance(block, Figures):
            pairs = (f"<div><dt>{escape(name)}</dt><dd>{escape(value)}</dd></div>" for name, value in block.pairs)
            yield f'<dl class="figures{" long" * (block.longest > 11)}">{"".join(pairs)}</dl>\n'
        elif isinstance(block, Key):
            if block.reading:
                yield f"<p>{marked(block.reading)}</p>\n"
            yield f'<ul class="legend">{"".join(self.mark(*mark) for mark in block.marks)}</ul>\n'
        elif isinstance(block, Table):
            yield from table_texts(block, next(self.numbers))
        elif isinstance(block, Picture):
            yield from self.picture(block)
        elif isinstance(block, Fold):
            yield f"<details>\n<summary>{escape(block.title)}</summary>\n"
            for inner in block.blocks:
                yield from self.block(inner)
            yield "</details>\n"
        else:
            yield from self.cards(block)

    def mark(self, colour: str, shape: str, words: str) -> str:
        """What a mark of pictures means."""
        return f'<li><i class="{shape}" style="--mark: var(--{colour})"></i>{written(words)}</li>'

    def picture(self, picture: Picture) -> Iterator[str]:
        """A picture, and the table that says the same."""
        number = next(self.numbers)
        caption = written(picture.caption or picture.title)
        yield f'<figure aria-describedby="t{number}">\n<figcaption>{caption}</figcaption>\n{picture.draw()}'
        yield from table_texts(picture.table, number)
        yield "</figure>\n"

    def cards(self, cards: Cards) -> Iterator[str]:
        """Cards, side by side if there is room."""
        yield f'<div class="cards{" " + cards.size if cards.size else ""}">\n'
        for card in cards.cards:
            yield from self.card(card)
        yield "</div>\n"

    def card(self, card: Card) -> Iterator[str]:
        """A card with its title and its blocks."""
        yield f'<article class="card{" short" * card.is_short}">\n'
        if card.title:
            note = f" <small>{written(card.note)}</small>" if card.note else ""
            yield f"<h{self.card_level}>{written(card.title)}{note}</h{self.card_level}>\n"
        for block in card.blocks:
            yield from self.block(block)
        yield "</article>\n"

    def section(self, section: Section) -> Iterator[str]:
        """A section with its title, and what its numbers say."""
        title, self.card_level = escape(section.title), 3
        head = f"<small>{title}</small> {written(section.finding)}" if section.finding else title
        yield f'<section id="{section.key}" aria-labelledby="{section.key}-head">\n'
        yield f'<h2 id="{section.key}-head">{head}</h2>\n'
        for block in section.blocks:
            yield from self.block(block)
        yield "</section>\n"


def style(foot: str) -> str:
    """The style sheet; the foot is below each page that is printed."""
    quoted = '"' + "".join(letter for letter in foot if letter not in '"<\\') + '"'
    sheet = (TEMPLATES / "page.css").read_text(encoding="utf-8").replace("FOOT", quoted)
    above, below = sheet.split("/* stack.css, for each width */\n")
    stacked = (TEMPLATES / "stack.css").read_text(encoding="utf-8")
    white, dark = variables("white"), variables("dark")
    return (
        f":root {{ {white} }}\n@media (prefers-color-scheme: dark) {{ :root {{ {dark} }} }}\n"
        f"@media print {{ :root {{ {white} }} }}\n{page_rules()}"
        f"{above}{''.join(stacked.replace('WIDTH', str(width)) for width in STACKS)}{below}"
    )


def link(section: Section) -> str:
    """A link to a section."""
    return f'<li><a href="#{section.key}">{escape(section.title)}</a></li>'


def page_texts(report: Page) -> Iterator[str]:
    """The report as a page, text after text."""
    title, write = escape(report.title), Writer()
    yield '<!DOCTYPE html>\n<html lang="en">\n<head>\n<meta charset="utf-8">\n'
    yield '<meta name="viewport" content="width=device-width, initial-scale=1">\n'
    yield f'<meta name="color-scheme" content="light dark">\n<title>{title}</title>\n'
    yield f"<style>\n{style(report.foot)}</style>\n</head>\n<body>\n<header>\n<h1>{written(report.title)}</h1>\n"
    yield f'<p>{marked(report.under)}</p>\n<nav aria-label="Parts of this report"><ul>'
    yield f"{''.join(map(link, report.sections))}</ul></nav>\n</header>\n<main>\n"
    for section in report.sections:
        yield from write.section(section)
    yield "</main>\n</body>\n</html>\n"


def page(report: Page) -> str:
    """The report as a page."""
    return "".join(page_texts(report))
