"""What waits for a second person, and who the two are."""

from __future__ import annotations

from collections.abc import Mapping
from dataclasses import dataclass
from typing import Literal

from cca_tools.desk.logfile import Base

FIRST, SECOND = 1, 2


@dataclass(frozen=True)
class Asked:
    """A close or a cut that was asked for: the log that it was asked for, and the fields of its form."""

    kind: Literal["close", "cut"]
    base: Base
    data: bytes
    form: Mapping[str, str]


class People:
    """The names of the auctioneer and of the second person, as they were typed at the door."""

    def __init__(self, by_two: bool) -> None:
        self.by_two = by_two
        self._names = dict[int, str]()

    def enter(self, person: int, name: str) -> bool:
        """Takes the name of somebody who has the key; whether it may be: two people need names that differ."""
        if not self.by_two:
            return True
        others = {it.casefold() for number, it in self._names.items() if number != person}
        if not name or name.casefold() in others:
            return False
        self._names[person] = name
        return True

    def names(self) -> dict[str, str]:
        """Both names, as the journal has them."""
        return {"by": self._names.get(FIRST, ""), "approved": self._names.get(SECOND, "")} if self.by_two else {}
