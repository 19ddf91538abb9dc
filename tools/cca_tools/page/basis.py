"""What a report rests on, and what isn't modelled."""

from __future__ import annotations

import hashlib
import pathlib
from collections.abc import Sequence

from cca_tools.page.document import (
    Block,
    Card,
    Cards,
    Cell,
    Content,
    Heading,
    Points,
    Section,
    Table,
    Tone,
    Words,
    columns,
)
from cca_tools.page.source import Source
from cca_tools.rules.mark import mark_of
from cca_tools.rules.stops import MOST
from cca_tools.version import released, version

KINDS = {"award": "award", "log": "log", "book": "book of bids", "cert": "certificate"}
PROVED = (
    "Of the program `cca`, built with proof, is proved for every award and log: whenever `cca audit` says yes, the book"
    " holds exactly the bids that the activity rules admit, the winners are the first feasible choice of greatest net"
    " value, no coalition blocks the prices, their sum is least in the core, and every other core point of that sum is"
    " farther from the Vickrey point. The proofs are over the program's own definitions, which `docs/DEFINITIONS.md`"
    " has; what has to be believed is told in `README.md`."
)
NOT_PROVED = (
    "That the log has what the bidders sent, and all of it, no program can say. This page itself isn't proved: its"
    " numbers are those of the second program in `tools/`, and of the certificate."
)
LEFT_OUT = [
    "opt-in rounds, reserved portfolios and lots of low power",
    "deposits, default, and withdrawal of bids once lists are closed",
    "ties decided by lot: a stated order decides",
    "prices rounded to whole units: fractions stand as they are",
    "relaxed bids in the clock, and rules of revealed preference beyond the relative caps",
    "an activity requirement below 100 %, waivers, extensions, and bids that stand from the round before",
    "reserves of single bidders, and joint bids",
    "sending, signing and keeping secret of bids",
]


def mark(source: Source) -> str:
    """Whether the program is proved, by its own mark and its checksum."""
    path = pathlib.Path(source.program or "")
    if not path.is_file():
        return "The program isn't here, so nothing is known about its proof."
    found = mark_of(path.read_bytes())
    return f"The program here: {found.text}." + ("" if found.is_proved else " Nothing below applies to it.")


def made_by() -> str:
    """Which version of the tools made the page, with its commit where a release says it."""
    commit = released()
    return f"This page was made by version {version()} of the tools{f', commit `{commit}`' if commit else ''}."


def verdicts(source: Source) -> list[list[Content]]:
    """The verdicts of the program and the second program on the certificate."""
    command = "cca audit" if source.award else "cca check"
    rows: list[list[Content]] = []
    if source.certificate is None:
        return rows
    if source.is_given:
        tone: Tone = "good" if source.said == "yes" else "bad" if source.said else ""
        rows.append([f"the program, {command}", Cell(source.said or "not asked", tone=tone)])
    line = source.fault.line if source.fault else "yes"
    rows.append(["the second program, in tools/", Cell(line, tone="good" if line == "yes" else "bad")])
    return rows


def sums(source: Source, with_program: bool) -> Table:
    """The files with their checksums, and with the program if that is asked for."""
    rows: list[list[Content]] = [[KINDS[it.kind], it.name, Cell("", it.sum)] for it in source.sums]
    if with_program and source.program:
        path = pathlib.Path(source.program)
        rows.append(["program", path.name, Cell("", hashlib.sha256(path.read_bytes()).hexdigest())])
    return Table("The files, by their checksums (SHA-256)", columns("What", "File", "Checksum"), rows)


def asked(source: Source) -> Words:
    """Who has tested the certificate."""
    if source.certificate is None:
        return Words("No certificate was given, so nothing was tested.")
    if not source.is_given:
        return Words(
            "No certificate was given. The program has worked one out for this report, and the second program has"
            " tested it; it isn't the published one."
        )
    if not source.said:
        return Words(f"{found(source)}The certificate was tested by the second program. The program isn't here.")
    return Words(f"{found(source)}The certificate was tested by two programs, which share no code.")


def found(source: Source) -> str:
    """That the program hasn't found the prices, if there are more winners than it prices."""
    winners = len(source.certificate.winners) if source.certificate else 0
    if winners <= MOST["winners"]:
        return ""
    most = MOST["winners"]
    return f"{winners} bidders win, and the program finds prices for at most {most}: another program found these. "


def section(source: Source, with_program: bool = False, more: Sequence[Block] = ()) -> Section:
    """What the report rests on."""
    blocks = list(more)
    if source.book is not None:
        blocks.append(asked(source))
        if source.certificate is not None:
            table = Table("Does the certificate pass?", columns("Tested by", "Answer"), verdicts(source))
            blocks.append(Cards([Card("", [table])]))
    blocks.append(Cards([Card("", [sums(source, with_program)])], size="wide"))
    blocks += [Heading("What is proved"), Words(mark(source)), Words(PROVED)]
    blocks += [Words(NOT_PROVED), Words(made_by()), Heading("What isn't modelled"), Points(LEFT_OUT)]
    return Section("basis", "What this rests on", blocks)
