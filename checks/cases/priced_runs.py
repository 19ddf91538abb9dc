"""Runs of tools/price on drawn books, and the answers of the checkers to its certificates.

A run is kept as a line of JSON, and the files of a run are kept until all checkers have judged its certificate. So a
count can be stopped and resumed, and a checker that is built later judges what there is.
"""

from __future__ import annotations

import collections
import itertools
import json
import math
import os
import pathlib
import subprocess
import sys
import tempfile
import time
from collections.abc import Callable, Iterable, Iterator, Sequence
from concurrent.futures import ProcessPoolExecutor
from dataclasses import asdict, dataclass, field
from typing import NamedTuple, TypeAlias, TypeVar

from checks.cases.many_winners import Drawn
from checks.cases.samples import TOOLS, called

from cca_tools.pricing.tables import NARROW, most_worth
from cca_tools.rules.book import Book, book_text
from cca_tools.rules.stops import DONE, LIMIT
from cca_tools.studies.runners import begin_worker

ROOT = pathlib.Path(__file__).resolve().parents[2]
CHECKER = ROOT / "second_proof" / "built" / "checker"
PROGRAM, COURT, PROOF = "cca", "tools/check", "second proof"
JUDGES = (PROGRAM, COURT, PROOF)
AHEAD = 4  # so many jobs are given to each process, so that a long one doesn't hold up the others
T = TypeVar("T")
More: TypeAlias = dict[str, int | float | str]


@dataclass
class Record:
    """A run of tools/price on a drawn book. `line` is `yes`, or the stop. `rows`, `den_digits`, `digits` and `bytes`
    describe the certificate. If there is none, `rows` is how many the stop names, and `is_least` is whether fewer are
    impossible. `judged` has for each checker whether it prints what tools/price printed."""

    number: int
    family: str
    bidders: int
    bids: int
    states: int
    winners: int
    is_weighted: bool
    is_wide: bool = False  # whether a table needs Python's integers
    line: str = ""
    status: int = 0
    rows: int = 0
    is_least: bool = False
    den_digits: int = 0
    digits: int = 0
    bytes: int = 0
    seconds: float = 0
    judged: dict[str, bool] = field(default_factory=dict)
    faults: list[str] = field(default_factory=list)
    more: More = field(default_factory=dict)

    @property
    def is_priced(self) -> bool:
        """Whether there is a certificate."""
        return self.status == DONE


class Files(NamedTuple):
    """The files of a run."""

    book: pathlib.Path
    weights: pathlib.Path
    cert: pathlib.Path

    def remove(self) -> None:
        """Removes them."""
        for path in self:
            path.unlink(missing_ok=True)


class Ended(NamedTuple):
    """What a run printed, what it wrote to standard error, its status, its processor time, and the most memory that it
    or a process of its own had, in megabytes; 0 if it isn't measured."""

    printed: str
    errors: str
    status: int
    seconds: float
    megabytes: float = 0


Pricer: TypeAlias = Callable[[Sequence[str]], Ended]


def ran(words: Sequence[str | pathlib.Path], **environment: str) -> Ended:
    """A run of a program."""
    with tempfile.TemporaryFile("w+") as out, tempfile.TemporaryFile("w+") as errors:
        how = {**os.environ, **environment}
        run = subprocess.Popen(words, env=how, stdin=subprocess.DEVNULL, stdout=out, stderr=errors)
        _, code, spent = os.wait4(run.pid, 0)
        run.returncode = os.waitstatus_to_exitcode(code)
        out.seek(0)
        errors.seek(0)
        seconds = spent.ru_utime + spent.ru_stime
        return Ended(out.read(), errors.read(), run.returncode, seconds)


def here(without: Sequence[str] = ()) -> list[str]:
    """The checkers that are here, except those that are left out."""
    found = {PROGRAM: bool(os.environ.get("CCA_PROGRAM")), COURT: True, PROOF: CHECKER.exists()}
    return [judge for judge in JUDGES if found[judge] and judge not in without]


def judge_words(judge: str, files: Files, is_weighted: bool) -> list[str | pathlib.Path]:
    """The command line that runs a checker on files."""
    if judge == COURT:
        weights = [files.weights] if is_weighted else []
        return [sys.executable, os.path.join(TOOLS, "check"), files.book, files.cert, *weights]
    program = pathlib.Path(os.environ["CCA_PROGRAM"] if judge == PROGRAM else CHECKER)
    if is_weighted:
        return [program, "weigh-check", files.book, files.weights, files.cert]
    return [program, "check", files.book, files.cert]


def weights_text(book: Book, weights: Sequence[int]) -> str:
    """The file of weights."""
    lines = [f"weight {name} {weight}" for name, weight in zip(book.names, weights)]
    return "\n".join(["weights 1", *lines, "end", ""])


def price_words(files: Files, is_weighted: bool) -> list[str]:
    """The arguments of tools/price."""
    weights = ["--weights", str(files.weights)] if is_weighted else []
    return [str(files.book), str(files.cert), *weights]


def priced(words: Sequence[str]) -> Ended:
    """A run of tools/price in this process."""
    begun = time.process_time()
    printed, status, errors = called("price", *words)
    return Ended(printed, errors, status, time.process_time() - begun)


def with_flags(*flags: str) -> Pricer:
    """A pricer that adds these flags."""
    return lambda words: priced([*words, *flags])


def priced_apart(words: Sequence[str]) -> Ended:
    """A run of tools/price in a process of its own, measured by /usr/bin/time: a process that this one starts counts
    this one's memory as its own."""
    with tempfile.NamedTemporaryFile("r") as file:
        measured = ["/usr/bin/time", "--quiet", "-f", "%U %S %M", "-o", file.name]
        ended = ran([*measured, sys.executable, os.path.join(TOOLS, "price"), *words])
        user, system, kilobytes = file.read().split()
        return ended._replace(seconds=float(user) + float(system), megabytes=int(kilobytes) / 1024)


@dataclass(frozen=True)
class Runner:
    """Runs tools/price on drawn books, and checkers on its certificates. Its files have its name and are in a
    folder."""

    name: str
    folder: pathlib.Path
    judges: Sequence[str]

    def files(self, number: int) -> Files:
        """The files of a run."""
        return Files(*(self.folder / f"{self.name}-{number}.{kind}" for kind in ("book", "weights", "cert")))

    def run(self, number: int, drawn: Drawn, winners: int, pricer: Pricer = priced) -> tuple[Record, Ended, Files]:
        """Writes the files of a drawn book, and runs tools/price on them. Its certificate is judged."""
        book, files = drawn.book, self.files(number)
        files.remove()
        files.book.write_bytes(book_text(book))
        if drawn.weights:
            files.weights.write_text(weights_text(book, drawn.weights))
        bids = sum(map(len, book.bids))
        record = Record(number, drawn.family, book.bidders, bids, book.states, winners, bool(drawn.weights))
        ended = pricer(price_words(files, record.is_weighted))
        take_answer(record, ended, book, files)
        if record.is_priced:
            record.more["printed"] = ended.printed
            record.judged |= {COURT: True} if f"{COURT} has tested the certificate" in ended.errors else {}
            self.judge(record)
        return record, ended, files

    def judge(self, record: Record) -> Record:
        """Has each checker that hasn't judged a certificate judge it."""
        files = self.files(record.number)
        for judge in self.judges:
            if judge not in record.judged:
                said = ran(judge_words(judge, files, record.is_weighted))
                record.judged[judge] = (said.printed, said.status) == (record.more["printed"], DONE)
                record.more[f"seconds of {judge}"] = round(said.seconds, 3)
                if not record.judged[judge]:
                    record.faults.append(f"{judge} answers {said.printed.splitlines()[:1]} and status {said.status}")
        return record

    def is_left(self, record: Record) -> bool:
        """Whether a certificate was kept for a checker that hasn't judged it."""
        is_judged = not {*self.judges} - {*record.judged}
        return record.is_priced and not is_judged and self.files(record.number).cert.exists()


class Count:
    """A count in a folder: its records, which are in the file of its name, and what runs it."""

    def __init__(self, name: str, folder: pathlib.Path, without: Sequence[str] = ()) -> None:
        folder.mkdir(parents=True, exist_ok=True)
        self.runner, self.path = Runner(name, folder, here(without)), folder / f"{name}.jsonl"
        self.records = {record.number: record for record in read_records(self.path)}

    def keep(self, record: Record) -> None:
        """Keeps a record, in the place of the one of its number. Files that all checkers have judged are removed."""
        self.records[record.number] = record
        with open(self.path, "a") as file:
            file.write(json.dumps(asdict(record)) + "\n")
        if not record.is_priced or not record.faults and len(record.judged) == len(JUDGES):
            self.runner.files(record.number).remove()


def in_order(run: Callable[[T], Record], jobs: Iterable[T], processes: int) -> Iterator[Record]:
    """The records of jobs, in their order, by this many processes; for 1 by this process. After Ctrl-C the jobs that
    run are finished, but their records are lost."""
    if processes == 1:
        yield from map(run, jobs)
        return
    with ProcessPoolExecutor(processes, initializer=begin_worker, initargs=(os.getpid(),)) as pool:
        given = (pool.submit(run, job) for job in jobs)
        waiting = collections.deque(itertools.islice(given, AHEAD * processes))
        try:
            while waiting:
                yield waiting.popleft().result()
                waiting.extend(itertools.islice(given, 1))
        finally:
            pool.shutdown(wait=False, cancel_futures=True)


def take_answer(record: Record, ended: Ended, book: Book, files: Files) -> None:
    """Takes what tools/price printed and wrote into a record."""
    lines = ended.printed.splitlines() or [""]
    record.line, record.status, record.seconds = lines[0], ended.status, round(ended.seconds, 3)
    if record.is_priced:
        take_certificate(record, book, lines, files.cert.read_bytes())
    elif record.line.startswith("cca: limit rows ") and ended.status == LIMIT:
        record.rows, record.is_least = int(lines[0].split(" ")[-1]), "these prices need" in ended.errors.lower()
    elif not (record.line.startswith("cca: limit ") and ended.status == LIMIT):
        record.faults.append(f"status {ended.status}: {ended.printed[:200]} {ended.errors[-500:]}")
    if files.cert.exists() != record.is_priced:
        record.faults.append("a certificate is there without a yes" if files.cert.exists() else "no certificate")


def take_certificate(record: Record, book: Book, printed: Sequence[str], cert: bytes) -> None:
    """Takes the sizes of a certificate into a record."""
    if (winners := sum(line.startswith("winner ") for line in printed)) != record.winners:
        record.faults.append(f"{winners} winners are printed, and {record.winners} bidders win")
    record.bytes = len(cert)
    record.rows = int(cert.rpartition(b"\nrows ")[2].split(b"\n")[0])
    record.den_digits = len(cert.partition(b"\nden ")[2].split(b"\n")[0])
    record.digits = max(len(word.lstrip(b"-")) for word in cert.split() if word.lstrip(b"-").isdigit())
    dens = [int(pays.partition("/")[2] or 1) for pays in (line.split(" ")[-1] for line in printed)]
    record.is_wide = math.lcm(*dens) * (most_worth(book.net) + 1) >= NARROW


def read_records(path: pathlib.Path) -> Iterator[Record]:
    """The records of a file, a later one of a number after an earlier one. A last line that a kill has cut is removed
    from the file."""
    data = path.read_bytes() if path.exists() else b""
    whole = data.rpartition(b"\n")[0].splitlines()
    if data and not data.endswith(b"\n"):
        path.write_bytes(b"".join(line + b"\n" for line in whole))
    return (Record(**json.loads(line)) for line in whole)
