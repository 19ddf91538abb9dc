"""The program, if it is there: prices come from it, since the second program tests prices and doesn't find them."""

from __future__ import annotations

import os
import subprocess

from cca_tools.rules.book import Book, book_text
from cca_tools.rules.scratch import need_written, scratch_folder
from cca_tools.rules.stops import DONE
from cca_tools.rules.types import BidderNumber, Package
from cca_tools.rules.winners import winner_lines, winning_choice
from cca_tools.version import ROOT, released

BUILT = ROOT / "crates" / "cca" / "out" / "cca.built"
RELEASED = ROOT / "cca"
MISSING = (
    "Prices are found by the program, which isn't built here; these are the winners by the second program. Build it"
    " once with ./cca, or say where it is with CCA_PROGRAM=PATH."
)


def program() -> str | None:
    """The path of the program, or None: the path in CCA_PROGRAM, the program of this release, or the one that ./cca has
    built."""
    path = os.environ.get("CCA_PROGRAM") or str(RELEASED if released() else BUILT)
    return path if os.access(path, os.X_OK) and os.path.isfile(path) else None


def said(path: str, book: Book, command: str, *flags: str) -> tuple[list[str], int]:
    """What a command of the program at a path prints for a book, and its status. Raises `Stop` if temporary
    files can't be written."""
    with scratch_folder() as folder:
        name = folder / "book"
        name.write_bytes(book_text(book))
        cert = [str(folder / "cert")] if command == "price" else []
        run = subprocess.run(
            [path, command, str(name), *cert, *flags], stdin=subprocess.DEVNULL, capture_output=True, text=True
        )
        need_written(run.returncode)
        return run.stdout.splitlines(), run.returncode


def price_lines(book: Book) -> list[str]:
    """The winners with their prices as the program finds them; if it isn't there, or finds none, the winners and
    why."""
    path = program()
    if not path:
        return list(winner_lines(book))
    lines, status = said(path, book, "price")
    if status == DONE:
        return lines
    return [*winner_lines(book), f"No prices: the program answers `{lines[-1] if lines else status}`."]


def wins(book: Book, j: BidderNumber, package: Package) -> bool:
    """Whether bidder j wins with this package."""
    path = program()
    if not path:
        won = book.won(winning_choice(book)[0], j)
        return won is not None and won[0] == package
    head = ["winner", book.names[j - 1], *map(str, package)]
    return any(line.split(" ")[:-1] == head for line in said(path, book, "win")[0])
