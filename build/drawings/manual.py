"""Makes the manual page of cca, docs/cca.1, from docs/FORMATS.md.

Headings become sections, blocks of code stay unchanged, and tables become lists: a tagged paragraph for each row. The
commands come first, and what only the desk writes is left out. `man -l docs/cca.1` shows the page.
"""

from __future__ import annotations

import pathlib
import re
from collections.abc import Iterable, Iterator, Sequence

DOCS = pathlib.Path(__file__).resolve().parents[2] / "docs"
HEAD = """.TH CCA 1 "" "" "Combinatorial clock auctions"
.SH NAME
cca \\- run a combinatorial clock auction, and price it by core-selecting prices
"""


# What FORMATS has in sentences, in the form for readers of manual pages.
OPTIONS = """.SH OPTIONS
.TP
.B \\-\\-rounds
Prints first a line for each round of pricing: its point, and which winners have to pay more from then on.
.TP
.B \\-\\-json
Prints winners and prices as one line of JSON.
.PP
Options come after the files, each once.
"""
TAKES = {"award": "rounds json", "price": "rounds json", "weigh": "rounds json", "place": "rounds"}
TAIL = """.SH EXAMPLES
.PP
.nf
.RS
cca award sale.award sale.log sale.cert
cca audit sale.award sale.log sale.cert
cca price examples/day\\-cramton.book new.cert \\-\\-rounds
.RE
.fi
.PP
The first prices an auction that is over, and makes its certificate; the second tests it. Both print the winners with
their prices.
.SH SEE ALSO
docs/README.md lists all pages. docs/AUCTIONEER.md has the day of an auction, docs/CERTIFICATES.md the certificate and
its tests.
"""
SECTIONS = {"COMMANDS": "SYNOPSIS", "STATUSES": "EXIT STATUS"}
OF_THE_DESK = "## The posted lines and the journal"
# What is added to a cell, by the head of its column; cells of other columns stay unchanged.
SAID = {
    "Appends to": "Appends to {}.",
    "Prints": "Prints {}.",
    "Status": "{}.",
    "Line": "Line: {}.",
    "Quantity": "{}:",
    "Greatest": "at most {}.",
    "More keys": "Keys: {}.",
}


def plain(text: str) -> str:
    """A text without the marks of a document, in the letters of a manual page."""
    text = re.sub(r"\*\*(.*?)\*\*", r"\1", text).replace("`", "").replace("\\", "\\e").replace("-", "\\-")
    return "\\&" + text if text.startswith((".", "'")) else text


def cells(row: str) -> list[str]:
    return [plain(cell.strip()) for cell in row.strip().strip("|").split("|")]


def table(rows: Iterable[str]) -> Iterator[str]:
    """A tagged paragraph for each row after the head: the first cell is its tag, and the others are its text."""
    head, *body = [cells(row) for row in rows if not re.fullmatch(r"[|\s-]+", row)]
    for tag, *others in body:
        said = [SAID.get(name, "{}").format(cell) for name, cell in zip(head[1:], others) if cell]
        yield ".TP\n" + (f".B {tag}{options(tag)}" if tag else "\\&") + "\n" + (" ".join(said) or "\\&")


def options(tag: str) -> str:
    """The options of a command, by its command line."""
    name = tag.split(" ")[1] if tag.startswith("cca ") else ""
    return "".join(f" [\\-\\-{it}]" for it in TAKES.get(name, "").split())


def paragraph(lines: Iterable[str]) -> Iterator[str]:
    """A paragraph, or a list: an item is a line that begins with "- ", with the lines after it."""
    items = re.split(r"\n(?=- )", "\n".join(line.strip() for line in lines))
    for item in items:
        head = ".IP \\(bu 2\n" if item.startswith("- ") else ".PP\n"
        yield head + "\n".join(plain(line) for line in item.removeprefix("- ").split("\n"))


def block(lines: Sequence[str]) -> Iterator[str]:
    yield ".PP\n.nf\n.RS\n" + "\n".join(plain(line) for line in lines[1:-1]) + "\n.RE\n.fi"


def split(text: str) -> Iterator[str]:
    """The parts of a document in order: blocks of code, headings, tables and paragraphs."""
    for number, piece in enumerate(re.split(r"^(```\w*\n.*?^```)$", text, flags=re.M | re.S)):
        if number % 2:
            yield piece
        else:
            yield from (it for it in re.split(r"\n\s*\n", piece) if it.strip())


def in_order(text: str) -> str:
    """The document with its commands before its introduction, and without what the desk writes."""
    sections = [part for part in re.split(r"^(?=##? )", text, flags=re.M) if part and not part.startswith(OF_THE_DESK)]
    introduction, commands, *others = sections
    synopsis, _, said = commands.partition("\n\nA command reads")
    return "\n".join([synopsis + "\n", introduction + "A command reads" + said, *others])


def manual(text: str) -> str:
    """The manual page of a document."""
    made = [HEAD]
    for piece in split(in_order(text)):
        lines = piece.strip("\n").split("\n")
        if lines[0].startswith("#"):
            head = plain(lines[0].lstrip("# ")).upper() if lines[0].startswith("## ") else "DESCRIPTION"
            if head == "STATUSES":
                made.append(OPTIONS.rstrip("\n"))
            made.append(".SH " + SECTIONS.get(head, head))
            lines = lines[1:]
        if not lines or not lines[0].strip():
            continue
        form = block if lines[0].startswith("```") else table if lines[0].startswith("|") else paragraph
        made += form(lines)
    return "\n".join(made) + "\n" + TAIL


def main(root: pathlib.Path) -> None:
    """Writes docs/cca.1 below this folder."""
    (root / "docs").mkdir(parents=True, exist_ok=True)
    (root / "docs" / "cca.1").write_text(manual((DOCS / "FORMATS.md").read_text()))
