"""Draws docs/pictures/checks.svg: which program, script or proof checks which file.

Files are rows and checkers are columns. A mark shows that the checker tests the file: a dot, that the checker is proved
or is a prover, and a square, that it is a program or a test that people read and run.
"""

from __future__ import annotations

import pathlib
from dataclasses import dataclass

from build.drawing import WIDTH, Drawing, draw_key, keep
from cca_tools.page.svg import width_of


@dataclass(frozen=True)
class Checker:
    """What checks files: its label in the picture, and whether it is proved or a prover."""

    words: str
    is_proof: bool = False


@dataclass(frozen=True)
class Checked:
    """Files that are checked together, and by what."""

    words: str
    by: tuple[Checker, ...]


CCA = Checker("cca audit, check, weigh-check, place-check", True)
PAGE = Checker("audit.html, extracted from the proof in Coq", True)
KERNEL = Checker("second_proof/audit, by Coq's kernel", True)
TOOLS = Checker("tools/audit, check, check-places")
PROVER = Checker("the prover of Rattle, by .ci/run", True)
COQ = Checker("Coq, by second_proof/build", True)
CASES = Checker("vectors/run, checks/compare")
RECORD = Checker("tools/journal --check")
NOTED = Checker("tools/seal check")
VIEW = Checker("tools/caps --view")
SUMS = Checker("sha256sum -c")
CHECKERS = (CCA, PAGE, KERNEL, TOOLS, PROVER, COQ, CASES, RECORD, NOTED, VIEW, SUMS)
PRICES = (CCA, PAGE, KERNEL, TOOLS)
GROUPS = {
    "A result": (
        Checked("award, log, certificate", PRICES),
        Checked("book, certificate", PRICES),
        Checked("book, weights, certificate", PRICES),
        Checked("slots, certificate", PRICES),
    ),
    "The record of the day": (
        Checked("journal, key, posted lines", (RECORD, NOTED)),
        Checked("lines that somebody noted", (NOTED,)),
        Checked("a bidder's own lines", (VIEW,)),
        Checked("all published files", (SUMS,)),
    ),
    "The checkers": (
        Checked("crates/: the program cca", (PROVER, CASES)),
        Checked("second_proof/: audit.html", (COQ, CASES)),
        Checked("tools/audit, check", (CASES,)),
    ),
}
STEP, LINE, ROW, TOP = 16, 16, 19, 8


def column(at: int) -> float:
    """The place of a checker's column: the first is at the right, so that no line crosses another's label."""
    return WIDTH - 10 - STEP * at


def draw_heads(drawing: Drawing, bottom: float) -> None:
    """The labels of the checkers, each with a line that leads to its column."""
    for at, checker in enumerate(CHECKERS):
        y, role = TOP + LINE * at + 8, "blue" if checker.is_proof else "green"
        drawing.text(4, y, checker.words, role)
        drawing.line(10 + width_of(checker.words), y - 4, column(at), y - 4, "rule", 1)
        drawing.line(column(at), y - 4, column(at), bottom, "rule", 1)


def draw_row(drawing: Drawing, row: Checked, y: float) -> None:
    """The labels of files, and a mark in the column of each of their checkers."""
    drawing.text(4, y + 4, row.words)
    for checker in row.by:
        x, says = column(CHECKERS.index(checker)), f"{row.words}: {checker.words}"
        if checker.is_proof:
            drawing.dot(x, y, 5, "blue", says)
        else:
            drawing.rect(x - 4.5, y - 4.5, 9, 9, "greenish", "green", 1.4, says=says)


def draw(folder: pathlib.Path) -> None:
    """Draws the picture in this folder."""
    drawing, y = Drawing("checks"), float(TOP + LINE * len(CHECKERS) + 6)
    bottom = y + sum(ROW * (len(rows) + 1) + 6 for rows in GROUPS.values()) - 6
    draw_heads(drawing, bottom)
    for name, rows in GROUPS.items():
        drawing.text(4, y + 16, name, "ink", is_bold=True)
        for at, row in enumerate(rows, 1):
            draw_row(drawing, row, y + 12 + ROW * at)
        y += ROW * (len(rows) + 1) + 6
    drawing.dot(10, bottom + 22, 5, "blue")
    drawing.text(20, bottom + 26, "proved, or a prover")
    draw_key(drawing, 178, bottom + 26, [("greenish", "green", False, "read and run by people")])
    about = [
        f"{row.words}: {'; '.join(it.words for it in CHECKERS if it in row.by)}"
        for rows in GROUPS.values()
        for row in rows
    ]
    keep(folder, drawing, round(bottom) + 36, "What checks which file", ". ".join(about) + ".")
