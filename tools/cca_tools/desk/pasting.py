"""Lines that are pasted: all faults at once, each by its line of the paste."""

from __future__ import annotations

import re
from collections.abc import Sequence
from dataclasses import dataclass

from cca_tools.desk.lines import FOREIGN, NotLines, closes_in, foreign
from cca_tools.rules.award import Award
from cca_tools.rules.log import read_log
from cca_tools.rules.printable import clipped
from cca_tools.rules.stops import Stop
from cca_tools.rules.telling import tell_log


@dataclass(frozen=True)
class Fault:
    """A line of a paste that isn't a line of the log: its number in the paste, what it says, and why."""

    row: int
    text: str
    why: str

    def words(self) -> str:
        """The fault in a sentence."""
        return (
            f"Line {self.row}, `{clipped(self.text)}`: {self.why}"
            if self.text.strip()
            else f"Line {self.row} {self.why}"
        )


@dataclass(frozen=True)
class Paste:
    """The lines of a paste that could be lines of the log, and the faults of the others."""

    good: Sequence[str]
    faults: Sequence[Fault]

    @property
    def rest(self) -> str:
        """The lines with faults, without blank ones."""
        return "".join(f"{it.text}\n" for it in self.faults if it.text.strip())


def rows_of(raw: str) -> list[str]:
    """The lines of a text that was pasted. A browser ends each line of it with two characters."""
    return raw.replace("\r\n", "\n").strip("\n").split("\n")


def why_not(text: str, award: Award, is_alone: bool) -> str:
    """Why a pasted line isn't a line of the log; empty if it is one."""
    if not text.strip():
        return "is blank. A log has a record on each line."
    try:
        if found := FOREIGN.search(text):
            foreign(text, found.start())
        if closes_in(text.encode()) and not (is_alone and text == "close,,,"):
            return "a close is written alone, as `close,,,`, on its own page."
        read_log(f"{text}\n".encode("ascii"), award)
    except NotLines as fault:
        return re.sub(r"^Line 1 has", "it has", str(fault))
    except Stop as stop:
        return " ".join(tell_log(stop)[1:]) or f"{stop.why}."
    return ""


def paste_of(raw: str, award: Award) -> Paste:
    """Tests each line of a text separately. Raises `NotLines` if nothing is typed."""
    rows = rows_of(raw)
    if not any(it.strip() for it in rows):
        raise NotLines("No line is typed.", "raw")
    good, faults = list[str](), list[Fault]()
    for row, text in enumerate(rows, 1):
        if why := why_not(text, award, len(rows) == 1):
            faults.append(Fault(row, text, why))
        else:
            good.append(text)
    return Paste(good, faults)
