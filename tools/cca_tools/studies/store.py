"""The folder of a study: rows are kept as they come, so that a study that was stopped can go on."""

from __future__ import annotations

import fcntl
import json
import os
import pathlib
from collections.abc import Iterator, Sequence
from typing import BinaryIO, NoReturn

from cca_tools.command_line import say
from cca_tools.data.numbers import Mark
from cca_tools.data.prices import table_text as csv_table
from cca_tools.rules.printable import printable
from cca_tools.rules.stops import CRASH, WRITE_FAULT, Stop
from cca_tools.studies.origin import Origin, differences
from cca_tools.studies.plan import Plan
from cca_tools.studies.rows import MADE, Done, Job, Row, columns_of, long_columns_of, long_rows

ROWS, TABLE, LONG, PAGE = "rows.jsonl", "table.csv", "bidders.csv", "page.html"
INPUTS, LOCK = "inputs", ".lock"


class Store:
    """A folder with the rows that it has of a plan. No two runs have one folder at the same time."""

    file: BinaryIO

    def __init__(self, folder: str, plan: Plan, origin: Origin) -> None:
        """Opens or makes the folder. A `Stop` if it can't be written, if another run has it, or if its rows are of
        another plan or were made by another program or other tools."""
        self.folder, self.plan, self.origin = pathlib.Path(folder), plan, origin
        self.rows: dict[Job, Row] = {}
        self.columns = columns_of(plan)
        try:
            self.folder.mkdir(parents=True, exist_ok=True)
            self.lock()
            self.read()
            if not self.rows:
                self.begin()
            self.file = open(self.folder / ROWS, "ab")
            self.keep_inputs()
        except OSError as fault:
            raise self.unwritten(fault) from None

    def unwritten(self, fault: OSError) -> Stop:
        """The stop of a folder that can't be written."""
        why = f"`{printable(str(self.folder))}` can't be written: {fault.strerror}"
        return Stop("cca: write fault study", WRITE_FAULT, why=why)

    def refuse(self, why: str) -> NoReturn:
        """Stops, since the rows can't be gone on with."""
        name = printable(str(self.folder / ROWS))
        raise Stop("cca: write fault study", WRITE_FAULT, why=f"`{name}` {why}; name another folder with --out")

    def lock(self) -> None:
        """Takes the folder for this process, as long as it lives. (Its workers don't have a lock of this kind.)"""
        self.locked = open(self.folder / LOCK, "ab")
        try:
            fcntl.lockf(self.locked, fcntl.LOCK_EX | fcntl.LOCK_NB)
        except OSError:
            why = (
                f"another run works on `{printable(str(self.folder))}`; wait for it, or name another folder with --out"
            )
            raise Stop("cca: write fault study", WRITE_FAULT, why=why) from None

    def begin(self) -> None:
        """Writes the first line of the rows."""
        (self.folder / ROWS).write_bytes(bytes_of(self.origin.members()))

    def read(self) -> None:
        """Reads the rows that exist. A line that isn't whole, such as the last one of a run that was stopped, is left
        out, and its auction is run again."""
        path = self.folder / ROWS
        if not path.exists():
            return
        first, *lines = path.read_bytes().split(b"\n")
        if not lines:
            return
        head, unfinished = object_of(first), lines.pop()
        if not head:
            self.refuse("has no first line that says what made it")
        if found := differences(head, self.origin):
            self.refuse(f"has rows of {' and of '.join(found)}")
        kept = [row for row in map(kept_row, lines) if row]
        self.rows = dict(kept)
        if torn := len(lines) - len(kept):
            say(f"tools/study: {torn} of the lines of {ROWS} can't be read; their auctions are held again")
        if torn or unfinished:
            replace(path, b"".join(self.lines()))

    def lines(self) -> Iterator[bytes]:
        """The lines of the file of rows."""
        yield bytes_of(self.origin.members())
        yield from (row_line(job, row) for job, row in self.rows.items())

    def keep_inputs(self) -> None:
        """Copies the plan and its files."""
        folder = self.folder / INPUTS
        folder.mkdir(exist_ok=True)
        for name, data in self.plan.files().items():
            replace(folder / name, data)

    def keep(self, done: Done) -> None:
        """Keeps the row of an auction, past the buffer. Stops if another program than the one of the study made it."""
        if done.program != self.origin.program:
            why = f"a worker has another program, {done.program}, and this study has {self.origin.program}"
            raise Stop("cca: another program", CRASH, why=why)
        self.rows[done.job] = done.row
        try:
            self.file.write(row_line(done.job, done.row))
            self.file.flush()
        except OSError as fault:
            raise self.unwritten(fault) from None

    def left(self) -> list[Job]:
        """The auctions that have no row yet, in order: the first auctions of all cases come first."""
        every = (Job(case, n) for n in range(1, self.plan.auctions + 1) for case in range(len(self.plan.cases)))
        return [job for job in every if job not in self.rows]

    def table(self) -> list[Row]:
        """The rows of the plan, by its cases and then by the auctions."""
        count = range(1, self.plan.auctions + 1)
        return [self.rows[Job(case, n)] for case in range(len(self.plan.cases)) for n in count]

    def write(self, name: str, text: str) -> str:
        """Writes a file of the folder, and returns its path."""
        path = self.folder / name
        try:
            replace(path, text.encode("utf-8"))
        except OSError as fault:
            raise self.unwritten(fault) from None
        return str(path)


def replace(path: pathlib.Path, data: bytes) -> None:
    """Puts a file in its place once it is whole."""
    new = path.with_name(f"{path.name}.new")
    try:
        new.write_bytes(data)
        os.replace(new, path)
    except OSError:
        new.unlink(missing_ok=True)
        raise


def bytes_of(line: object) -> bytes:
    """The bytes of a line of rows."""
    return f"{json.dumps(line)}\n".encode()


def row_line(job: Job, row: Row) -> bytes:
    """The line of a row."""
    return bytes_of({"case": job.case, "auction": job.number, "row": row})


def object_of(line: bytes) -> dict[str, object]:
    """The object of a line; an empty one if the line isn't whole."""
    try:
        found = json.loads(line)
    except ValueError:
        return {}
    return found if isinstance(found, dict) else {}


def kept_row(line: bytes) -> tuple[Job, Row] | None:
    """The row of a line, or None if the line isn't whole."""
    found = object_of(line)
    case, number, row = found.get("case"), found.get("auction"), found.get("row")
    if not isinstance(case, int) or not isinstance(number, int) or not isinstance(row, dict):
        return None
    return Job(case, number), row


def cells_of(columns: Sequence[str], row: Row, made: Row) -> list[str]:
    """The cells of a row; one that it doesn't have is empty."""
    return [made.get(name) or row.get(name) or "" for name in columns]


def made_cells(store: Store) -> Row:
    """What made the rows of a study."""
    return dict(zip(MADE, (store.origin.program, store.origin.maker, store.origin.plan)))


def table_text(store: Store, mark: Mark = ".") -> str:
    """The table of a study. Each row names what made it."""
    made = made_cells(store)
    return csv_table(store.columns, (cells_of(store.columns, row, made) for row in store.table()), mark)


def long_text(store: Store, mark: Mark = ".") -> str:
    """The table with a row for each bidder of each auction."""
    made, columns = made_cells(store), long_columns_of(store.plan)
    rows = (one for row in store.table() for one in long_rows(store.plan, row))
    return csv_table(columns, (cells_of(columns, row, made) for row in rows), mark)
