"""How a run ends without being done, the limits, and how a file is read.

The lines and the statuses are in docs/FORMATS.md.
"""

from __future__ import annotations

from dataclasses import dataclass
from typing import TypeAlias

from cca_tools.rules.printable import printable

DONE, NO, WORDS, REFUSED, READ_FAULT, WRITE_FAULT, MEMORY, LIMIT, NO_TEXT = range(9)
# The status of a tool that can't run, or that fails in a way that isn't foreseen: no answer has it.
CRASH = 70

# All limits; no other module states one.
MOST = {
    "award bytes": 65_536,
    "log bytes": 8_388_608,
    "book bytes": 1_048_576,
    "weights bytes": 65_536,
    "slots bytes": 65_536,
    "edits bytes": 1_048_576,
    "cert bytes": 67_108_864,
    "names bytes": 65_536,
    "key bytes": 65,
    "posted bytes": 1_048_576,
    "noted bytes": 1_048_576,
    "journal bytes": 268_435_456,
    "program bytes": 268_435_456,
    "bids bytes": 67_108_864,
    "values bytes": 1_048_576,
    "plan bytes": 65_536,
    "categories": 6,
    "lots": 40,
    "states": 16_384,
    "bidders": 16,
    "placed bidders": 6,
    "bids": 600,
    "records": 100_000,
    "edits": 1_000,
    "rounds": 300,
    "drafts": 300,
    "winners": 6,
    "weighted winners": 4,
    "price": 2**36,
    "amount": 2**42,
    "draft amount": 10**18,
    "supply": 999,
    "holding": 999,
    "band": 999,
    "count": 65_535,
    "points": 10_000,
    "eligibility": 1_000_000,
    "steps": 20,
    "step excess": 1_000,
    "permille": 1_000,
    "caps": 20,
    "cap weight": 1_000,
    "cap limit": 1_000_000,
    "weight": 20,
    "rows": 10,
    "first version bidders": 12,
    "first version states": 4_096,
}


@dataclass(frozen=True)
class LineSpot:
    """A line of a text that is read by lines: its number in an editor, and what was read."""

    row: int
    read: str


@dataclass(frozen=True)
class RecordSpot:
    """A field of a log's record: the line in an editor where the record begins, the record, the field's name and what
    was read there."""

    row: int
    read: str
    field: str
    part: str
    is_number: bool = False


@dataclass(frozen=True)
class FieldSpot:
    """A field of an award: its key, the list that its table is in, the table's number there (0 for the top), and its
    line."""

    field: str
    heading: str
    table: int
    row: int = 0  # 0 if it isn't found


Spot: TypeAlias = LineSpot | RecordSpot | FieldSpot


class Stop(Exception):
    """A run that isn't done: the line that it prints, its status, why in a sentence without its period, and where in a
    file."""

    def __init__(self, line: str, status: int, *, why: str = "", usage: str = "", spot: Spot | None = None) -> None:
        """`usage` has what a command takes, for wrong arguments."""
        super().__init__(f"{line}: {why}" if why else line)
        self.line, self.status, self.why, self.usage, self.spot = line, status, why, usage, spot


def refused(kind: str, *numbers: int, why: str = "", spot: Spot | None = None) -> Stop:
    """A file that isn't of its form: `cca: refused KIND` with the numbers of the place."""
    return Stop(" ".join(map(str, ["cca: refused", kind, *numbers])), REFUSED, why=why, spot=spot)


def limit(word: str, count: int, why: str = "") -> Stop:
    """More of something than its limit."""
    return Stop(f"cca: limit {word} {count}", LIMIT, why=why)


def within(word: str, count: int, most: int) -> None:
    """Stops if there is more of something than its limit."""
    if count > most:
        raise limit(word, count, why=f"{count} {word} are more than the limit of {most}")


def load(word: str, kind: str) -> bytes:
    """All bytes of a file, or of standard input if its name is `-`."""
    most = MOST[f"{kind} bytes"]
    try:
        with open(0 if word == "-" else word, "rb") as file:
            data = file.read(most + 1)
    except OSError as fault:
        raise unread(word, kind, fault) from None
    within("bytes", len(data), most)
    return data


def unread(word: str, kind: str, fault: OSError) -> Stop:
    """The stop of a file that can't be read. Its name is as it was given."""
    name = "standard input" if word == "-" else f"`{printable(word)}`"
    return Stop(f"cca: read fault {kind}", READ_FAULT, why=f"{name} can't be read: {fault.strerror}")
