"""The end of an auction, step by step: award and audits, the report, the published set. Each step may be repeated.

The steps call the program and the tools, and show the status of each run. A certificate, or a set, that is there is
tested, and never written again. All files are in the log's folder.
"""

from __future__ import annotations

import os
import re
import subprocess
import sys
import tempfile
from collections.abc import Sequence
from dataclasses import dataclass
from pathlib import Path

from cca_tools.desk.control import Desk, Moment
from cca_tools.desk.tables import Cell, Column, Row, Table
from cca_tools.desk.told import Speech
from cca_tools.page.words import commas
from cca_tools.rules.publication import AWARD, CERT, LOG, SUMS, sum_of
from cca_tools.rules.stops import DONE
from cca_tools.rules.ties import tie_sentences, ties_of

TOOLS = Path(__file__).resolve().parents[2]
PRICER = TOOLS / "price"
SECONDS = 1800


@dataclass(frozen=True)
class Run:
    """One run: what it was for, its status (None if it didn't end in its time), and what it printed."""

    name: str
    status: int | None
    printed: str

    @property
    def status_words(self) -> str:
        """The status in words."""
        return f"did not end in {SECONDS // 60} minutes" if self.status is None else f"status {self.status}"


@dataclass(frozen=True)
class Outcome:
    """What a step has led to: a sentence, whether all is right, its runs, and ties where the step looks for them."""

    sentence: str
    is_right: bool
    runs: Sequence[Run]
    ties: Sequence[str] = ()
    needs_pricer: bool = False
    tables: Sequence[Table] = ()


def run(name: str, words: Sequence[str | Path], program: Path) -> Run:
    """Runs a command, and returns its status and what it printed."""
    try:
        done = subprocess.run(
            list(map(str, words)),
            stdin=subprocess.DEVNULL,
            stdout=subprocess.PIPE,
            stderr=subprocess.STDOUT,
            env={**os.environ, "CCA_PROGRAM": str(program)},
            timeout=SECONDS,
        )
    except subprocess.TimeoutExpired:
        return Run(name, None, "")
    except OSError as fault:
        return Run(name, 70, f"It can't be run: {fault.strerror}.")
    return Run(name, done.returncode, done.stdout.decode("utf-8", "replace"))


def meaning(made: Run) -> str:
    """What a run said after its first line, which is the program's."""
    said = [line for line in made.printed.splitlines() if line and not line.startswith("cca:")]
    return " ".join(said)


PRICE = re.compile(r"winner (\w+) ([\d ]+) bid (\d+) vickrey (\d+) pays (\S+)")


def price_table(printed: str, speech: Speech) -> Table:
    """What the winners win and pay, by what both programs print, with names and the unit."""
    rows = []
    for line in printed.splitlines():
        if found := PRICE.fullmatch(line):
            name, lots, *amounts = found.groups()
            package = tuple(map(int, lots.split(" ")))
            cells = [Cell(speech.bidder(name)), Cell(speech.package(package), lots)]
            rows.append(Row([*cells, *(Cell(commas(it)) for it in amounts)]))
    total = "".join(line.removeprefix("revenue ") for line in printed.splitlines() if line.startswith("revenue "))
    rows.append(Row([Cell("Revenue"), *[Cell("")] * 3, Cell(commas(total))], "next"))
    columns = [Column("Winner", is_number=False), Column("Won", is_number=False)]
    return Table(
        speech.caption("What the winners pay"), [*columns, *map(Column, ("Bid", "Vickrey price", "Pays"))], rows
    )


class Ending:
    """The steps at the end of the auction of a desk."""

    def __init__(self, desk: Desk, names_path: Path | None) -> None:
        self.desk, self.names_path = desk, names_path
        log = desk.log_path
        self.cert, self.page, self.text = (log.with_name(f"{log.name}.{kind}") for kind in ("cert", "html", "txt"))

    @property
    def files(self) -> list[Path]:
        """The award, the log and the certificate."""
        return [self.desk.award_path, self.desk.log_path, self.cert]

    @property
    def names(self) -> list[str]:
        """The arguments that name the file of names for people."""
        return ["--names", str(self.names_path)] if self.names_path else []

    def award(self, moment: Moment) -> Outcome:
        """Awards if the certificate doesn't exist, then audits by both programs, and looks for ties."""
        runs = list[Run]()
        if not self.cert.exists():
            runs.append(self.make_cert("cca award", [self.desk.program, "award"]))
            if runs[0].status != DONE:
                return self.no_award(runs)
        return self.audited(moment, runs)

    def price(self, moment: Moment) -> Outcome:
        """Has `tools/price` make the certificate, for more winners than `cca award` prices. Then does what `award`
        does."""
        runs = list[Run]()
        if not self.cert.exists():
            runs.append(self.make_cert("tools/price", [sys.executable, PRICER]))
            if runs[0].status != DONE:
                return Outcome(f"`tools/price` made no certificate. {meaning(runs[0])}", False, runs)
        return self.audited(moment, runs)

    def no_award(self, runs: list[Run]) -> Outcome:
        """Why the program made no certificate, in the sentences of `tools/explain`."""
        explained = run(
            "tools/explain", [sys.executable, TOOLS / "explain", "award", *self.files[:2]], self.desk.program
        )
        is_limit = runs[0].printed.startswith("cca: limit winners")
        sentence = f"The program makes no certificate of this log. {meaning(explained)}"
        return Outcome(sentence, False, [*runs, explained], needs_pricer=is_limit)

    def audited(self, moment: Moment, runs: list[Run]) -> Outcome:
        """Has both programs audit the certificate, and looks for ties."""
        runs += [
            run("cca audit", [self.desk.program, "audit", *self.files], self.desk.program),
            run("tools/audit", [sys.executable, TOOLS / "audit", *self.files], self.desk.program),
        ]
        book = moment.auction.book()
        sentence, is_right = self.verdict(runs)
        tables = [price_table(runs[-1].printed, self.desk.speech)] if is_right else []
        return Outcome(sentence, is_right, runs, tie_sentences(book, ties_of(book)), tables=tables)

    def made_files(self) -> dict[str, Path]:
        """The files that the steps have made, by the names of their links."""
        found = {"certificate": self.cert, "report": self.page, "text": self.text}
        set_page = self.folder() / "index.html"
        return {name: path for name, path in {**found, "set": set_page}.items() if path.exists()}

    def links(self, is_closed: bool) -> dict[str, str]:
        """The files that can be loaded: the name of each link, and what it says."""
        if not is_closed:
            return {}
        words = {"certificate": "certificate", "report": "report", "text": "report as text", "set": "page of the set"}
        return {name: f"{words[name]}, {path.name}" for name, path in self.made_files().items()}

    def older_set(self) -> Path | None:
        """The last set that isn't of the files as they are; None if the newest one is."""
        folder = self.folder()
        if folder.exists():
            return None
        older = sorted(self.cert.parent.glob(f"{self.desk.log_path.name}.set*"))
        return older[-1] if older else None

    def verdict(self, runs: Sequence[Run]) -> tuple[str, bool]:
        """The verdict of the two audits, and whether it is good."""
        first, second = runs[-2:]
        if first.printed != second.printed or first.status != second.status:
            return "The programs differ on the certificate. Publish nothing, and keep all files.", False
        if first.status != DONE or not first.printed.startswith("yes\n"):
            return f"Both programs refuse the certificate {self.cert.name}: move it away, and award again.", False
        return "Both programs say yes, and print the same to the byte.", True

    def make_cert(self, what: str, command: Sequence[str | Path]) -> Run:
        """Has a command write a certificate under another name; it gets its own once it is whole."""
        fd, name = tempfile.mkstemp(prefix=f".{self.cert.name}.", dir=self.cert.parent)
        os.close(fd)
        os.unlink(name)
        try:
            made = run(what, [*command, *self.files[:2], name], self.desk.program)
            if made.status == DONE:
                sync(Path(name))
                os.link(name, self.cert)  # (it is never put over one that is there)
                sync(self.cert.parent)
            return made
        except OSError as fault:
            return Run(what, 70, f"The certificate can't be kept: {fault.strerror}.")
        finally:
            Path(name).unlink(missing_ok=True)

    def report(self) -> Outcome:
        """Makes the report again, as a page and as a text."""
        words: list[str | Path] = [sys.executable, TOOLS / "report", *self.names]
        made = [
            self.written(run("tools/report", [*words, *self.files], self.desk.program), self.page),
            self.written(run("tools/report --text", [*words, "--text", *self.files], self.desk.program), self.text),
        ]
        if any(it.status != DONE for it in made):
            return Outcome("The report isn't made.", False, made)
        return Outcome(f"The report is in {self.page.name} and {self.text.name}, next to the log.", True, made)

    def written(self, made: Run, path: Path) -> Run:
        """Writes what a run printed into a file, instead of an older one."""
        if made.status != DONE:
            return made
        beside = path.with_name(f".{path.name}.new")
        try:
            beside.write_text(made.printed, encoding="utf-8")
            os.replace(beside, path)
        except OSError as fault:
            return Run(made.name, 70, f"{path} can't be written: {fault.strerror}.")
        return Run(made.name, made.status, f"{len(made.printed):,} characters in {path.name}")

    def publish(self, moment: Moment) -> Outcome:
        """Makes the published set in a new folder, with the key, the journal and the posted lines. A set that is there
        is tested."""
        folder = self.folder()
        if folder.exists():
            there = f"The set is in {folder.name} already, next to the log, and all its checksums hold."
            return Outcome(there, True, [])
        self.desk.settle(is_publish=True)
        key, journal = (self.desk.log_path.with_name(f"{self.desk.log_path.name}.{kind}") for kind in ("key", "desk"))
        given: list[str | Path] = ["--key", key, "--journal", journal, "--posted", self.desk.log.posted_path]
        words: list[str | Path] = [sys.executable, TOOLS / "publish", *self.names, *given]
        made = run("tools/publish", [*words, *self.files, folder], self.desk.program)
        if made.status != DONE:
            return Outcome("The set isn't made.", False, [made])
        return Outcome(f"The set is in {folder.name}, next to the log.", True, [made])

    def folder(self) -> Path:
        """The folder of the set of these files, or the first name for one that isn't there."""
        number = 1
        while True:
            name = f"{self.desk.log_path.name}.set{'' if number == 1 else f'-{number}'}"
            folder = self.desk.log_path.with_name(name)
            if not folder.exists() or self.is_set(folder):
                return folder
            number += 1

    def is_set(self, folder: Path) -> bool:
        """Whether a folder has the set of these files, and all its checksums are right."""
        try:
            rows = [line.split("  ", 1) for line in (folder / SUMS).read_text().splitlines()]
            sums = {name: total for total, name in rows}
            own = dict(zip((AWARD, LOG, CERT), self.files))
            whole = all(sum_of((folder / name).read_bytes()) == total for name, total in sums.items())
            return whole and all(sums.get(name) == sum_of(path.read_bytes()) for name, path in own.items())
        except (OSError, ValueError):
            return False


def sync(path: Path) -> None:
    """Has the disk keep a file, or the names in a folder."""
    fd = os.open(path, os.O_RDONLY)
    try:
        os.fsync(fd)
    finally:
        os.close(fd)
