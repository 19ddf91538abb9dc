#!/usr/bin/env python3
"""Finds the definitions that docs/SECOND_PROOF.md sets next to each other, in the files of both proofs.

usage: quotes.py [--page]

It reads the table of the page: a cell has the name of a file, and after it the names of definitions of that file. It
prints how many definitions there are, or with --page the definitions themselves as a page of Markdown, each row of the
table a section. The status is 1 if a definition isn't in its file, and 2 for other arguments.
"""

import dataclasses
import pathlib
import re
import sys
from collections.abc import Iterator

ROOT = pathlib.Path(__file__).resolve().parent.parent
PAGE = ROOT / "docs" / "SECOND_PROOF.md"
SPAN = re.compile(r"`([^`]+)`")
FILE = re.compile(r"(?:(\w+)/)?\w+\.(?:antt|v)")


@dataclasses.dataclass(frozen=True)
class Quote:
    """A definition that the table names: its idea, its file from the top of the repository, and its name."""

    idea: str
    file: str
    name: str


def path_of(name: str) -> str:
    """The file that a cell names: `CRATE/FILE.antt` is below `crates`, `FILE.v` in `second_proof`."""
    crate, _, file = name.rpartition("/")
    return f"crates/{crate}/specs/{file}" if crate else f"second_proof/{file}"


def quotes_of(page: str) -> Iterator[Quote]:
    """The definitions that the table of a page names, row by row."""
    for row in page.split("\n"):
        cells = row.split("|")
        if len(cells) != 6 or ".antt`" not in cells[2]:
            continue
        for cell in cells[2:4]:
            file = ""
            for span in SPAN.findall(cell):
                if FILE.fullmatch(span):
                    file = path_of(span)
                else:
                    yield Quote(cells[1].strip(), file, span)


def quotes() -> list[Quote]:
    """The definitions that docs/SECOND_PROOF.md names."""
    return list(quotes_of(PAGE.read_text(encoding="utf-8")))


def rattle_definition(name: str, text: str) -> str:
    """A definition of a file of Rattle with its comments: the paragraph that begins with its name, or nothing."""
    begins = re.compile(rf"(?:--.*\n)*(?:(?:abbrev|pub|record) )*{re.escape(name)}\b")
    return next((part for part in re.split(r"\n{2,}", text.strip()) if begins.match(part)), "")


def coq_definition(name: str, text: str) -> str:
    """A definition or the statement of a theorem of Coq, up to the end of its sentence, or nothing."""
    kinds = "Definition|Fixpoint|Record|Inductive|Theorem"
    found = re.search(rf"^(?:{kinds}) {re.escape(name)}\b.*?\.$", text, re.MULTILINE | re.DOTALL)
    return found[0] if found else ""


def definition(quote: Quote) -> str:
    """The text of a definition in its file; nothing if the file or the definition isn't there."""
    path = ROOT / quote.file
    if not path.is_file():
        return ""
    find = coq_definition if path.suffix == ".v" else rattle_definition
    return find(quote.name, path.read_text(encoding="utf-8"))


def missing() -> list[Quote]:
    """The definitions that aren't in their files."""
    return [quote for quote in quotes() if not definition(quote)]


def side_by_side() -> str:
    """All definitions as a page of Markdown."""
    parts, idea, file = ["# The definitions of both proofs\n"], "", ""
    for quote in quotes():
        if quote.idea != idea:
            parts.append(f"## {quote.idea}\n")
            idea, file = quote.idea, ""
        if quote.file != file:
            parts.append(f"`{quote.file}`:\n")
            file = quote.file
        parts.append(f"```\n{definition(quote)}\n```\n")
    return "\n".join(parts)


def main(arguments: list[str]) -> int:
    """Prints the page or the count, and what isn't found."""
    if arguments not in ([], ["--page"]):
        print("usage: quotes.py [--page]", file=sys.stderr)
        return 2
    lost = missing()
    for quote in lost:
        print(f"docs/SECOND_PROOF.md names {quote.name}, which isn't in {quote.file}", file=sys.stderr)
    print(side_by_side() if arguments else f"{len(quotes())} definitions, {len(lost)} not found")
    return 1 if lost or not quotes() else 0


if __name__ == "__main__":
    sys.exit(main(sys.argv[1:]))
