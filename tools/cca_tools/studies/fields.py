"""The tables of a file of values and of a plan, read field by field; a fault names the table and the field."""

from __future__ import annotations

from collections.abc import Mapping, Sequence
from typing import NoReturn, TypeAlias

from cca_tools.rules.printable import clipped
from cca_tools.rules.stops import refused
from cca_tools.rules.toml import read_toml

# The least and the greatest of what may be drawn.
Range: TypeAlias = tuple[int, int]
MOST_VALUE = 2**40
MISSING = object()


class Fields:
    """A table: fields are taken from it, and then none may be left."""

    def __init__(self, kind: str, where: str, members: object) -> None:
        """`kind` is the kind of the file, and `where` the table in words, "" for the top."""
        self.kind, self.where = kind, where
        if not isinstance(members, dict):
            self.stop("a table has to be here")
        self.members: Mapping[str, object] = members
        self.left = list(members)

    def stop(self, why: str) -> NoReturn:
        """Stops, since the table isn't as it has to be."""
        raise refused(self.kind, why=f"{self.where}: {why}" if self.where else why)

    def need(self, right: bool, name: str, rule: str) -> None:
        """Stops if a field doesn't keep its rule."""
        if not right:
            read = self.members.get(name, MISSING)
            what = "is missing" if read is MISSING else f"is {clipped(repr(read), 60)}"
            self.stop(f"`{name}` {what}; it has to be {rule}")

    def take(self, name: str, default: object = MISSING) -> object:
        """The value of a field."""
        if name in self.left:
            self.left.remove(name)
        return self.members.get(name, default)

    def has(self, name: str) -> bool:
        """Whether a field is there."""
        return name in self.members

    def text(self, name: str, choices: Sequence[str] = (), default: object = MISSING) -> str:
        """A text; one of the choices if there are any."""
        value = self.take(name, default)
        rule = f"one of {', '.join(choices)}" if choices else "a text"
        self.need(isinstance(value, str) and (not choices or value in choices), name, rule)
        return str(value)

    def texts(self, name: str, choices: Sequence[str] = (), default: object = MISSING) -> list[str]:
        """A text, or a list of texts; each is one of the choices if there are any."""
        value = self.take(name, default)
        value = value if isinstance(value, list) else [value]
        right = bool(value) and all(isinstance(it, str) and (not choices or it in choices) for it in value)
        rule = f"one of {', '.join(choices)}, or a list of these" if choices else "a text or a list of texts"
        self.need(right, name, rule)
        return [str(it) for it in value]

    def whole(self, name: str, low: int, high: int, default: object = MISSING) -> int:
        """A whole number of this range."""
        value = self.take(name, default)
        self.need(is_whole(value, low, high), name, f"a whole number from {low} to {high}")
        assert isinstance(value, int)
        return value

    def wholes(self, name: str, low: int, high: int, count: int | None = None, default: object = MISSING) -> list[int]:
        """A list of whole numbers of this range, `count` of them if it is given; a single number is a list of one."""
        value = self.take(name, default)
        value = value if isinstance(value, list) else [value]
        right = all(is_whole(it, low, high) for it in value) and (len(value) == count if count else bool(value))
        self.need(right, name, f"a list of {f'{count} ' if count else ''}whole numbers from {low} to {high}")
        return list(value)

    def range(self, name: str, low: int = 0, high: int = MOST_VALUE, default: object = MISSING) -> Range:
        """A whole number, or the least and the greatest of what may be drawn."""
        found = range_of(self.take(name, default), low, high)
        self.need(found is not None, name, f"a whole number from {low} to {high}, or [least, greatest] of it")
        assert found is not None
        return found

    def ranges(self, name: str, count: int) -> list[Range]:
        """This many of these."""
        value = self.take(name)
        found = [range_of(it, 0, MOST_VALUE) for it in value] if isinstance(value, list) else []
        rule = f"a list of {count}, each a whole number from 0 to {MOST_VALUE} or [least, greatest] of it"
        self.need(len(found) == count and None not in found, name, rule)
        return [it for it in found if it is not None]

    def tables(self, name: str) -> list[Fields]:
        """The tables of a list; a missing one is empty."""
        value = self.take(name, [])
        self.need(isinstance(value, list), name, f"a list of tables, each begun by [[{name}]]")
        assert isinstance(value, list)
        inside = f"{self.where}, " if self.where else ""
        return [Fields(self.kind, f"{inside}table {at} of [[{name}]]", it) for at, it in enumerate(value, 1)]

    def no_more(self) -> None:
        """Stops at the first key that isn't a field."""
        if self.left:
            self.stop(f"the key `{clipped(self.left[0])}` isn't known here")


def is_whole(value: object, low: int, high: int) -> bool:
    """Whether a value is a whole number of this range. A truth value is none."""
    return type(value) is int and low <= value <= high


def range_of(value: object, low: int, high: int) -> Range | None:
    """The range that a value states, or None."""
    ends = value if isinstance(value, list) else [value, value]
    if len(ends) != 2 or not all(is_whole(end, low, high) for end in ends) or ends[0] > ends[1]:
        return None
    return ends[0], ends[1]


def fields_of(data: bytes, kind: str) -> Fields:
    """The table of a file's bytes."""
    try:
        return Fields(kind, "", read_toml(data))
    except ValueError as fault:
        raise refused(kind, why=f"the file is no TOML: {fault}") from None
