"""What can be wrong with a log on the disk, and how each fault is mended."""

from __future__ import annotations

from collections.abc import Sequence
from dataclasses import dataclass
from typing import Literal, TypeAlias

from cca_tools.desk.disk import sum_of
from cca_tools.desk.journal import Entry, replayed
from cca_tools.rules.printable import shown

# What the button of a stop does; "none" if somebody has to do something by hand first.
Mend: TypeAlias = Literal[
    "none", "take back", "take out", "end line", "cut again", "put back", "keep changed log", "restart"
]
ANSWERED = "All that was answered is in the log and in the journal."
IN_JOURNAL = "The journal has the log as it was answered."


@dataclass(frozen=True)
class Stop:
    """Why the desk can't write, what is safe, and what to do, each in one or two sentences; `mend` names the repair of
    the button.

    `take back` is for a torn last line. `end line` repairs that too, if the line lacks only its line feed: offer both
    then. A line with a reply that has lost its line feed has only `end line`. `put back` is for a changed log, which
    can also be kept as it is.
    """

    why: str
    safe: str
    todo: str
    mend: Mend

    def allows(self, mend: Mend) -> bool:
        """Whether a repair fits."""
        others = ("end line", "take back"), ("keep changed log", "put back")
        return mend == self.mend or (mend, self.mend) in others


def whole_lines(data: bytes) -> bytes:
    """The log up to its last line feed."""
    return data[: data.rfind(b"\n") + 1]


def is_cut_begun(data: bytes, last: Entry) -> bool:
    """Whether a cut was noted, and the log is the longer one still."""
    whole = last.whole()
    return last.what == "cut" and whole is not None and sum_of(data[: whole[0]]) == whole[1]


def is_changed(data: bytes, last: Entry) -> bool:
    """Whether the log differs from what the journal has, up to the length in its newest entry."""
    return len(data) < last.length or sum_of(data[: last.length]) != last.sum


def has_lost_feed(data: bytes, last: Entry) -> bool:
    """Whether the log lacks only the last line feed of what the journal has."""
    return len(data) == last.length - 1 and sum_of(data + b"\n") == last.sum


def begun_cut(last: Entry) -> Stop:
    """The stop of a cut that was noted and not done."""
    kept = " and ".join(last.names("kept"))
    return Stop(
        f"A cut to {last.length} bytes was begun at {last.at} and not ended.",
        f"The longer log is whole, and {kept} has a copy of it.",
        "Cut again.",
        "cut again",
    )


def torn_line(data: bytes) -> Stop:
    """The stop of a last line that never had a reply and has no line feed."""
    torn = data[len(whole_lines(data)) :]
    return Stop(
        f"The last line of the log has no line feed: `{shown(torn)}`. A write was cut short, or an editor left it out.",
        f"{ANSWERED} That line was never answered.",
        "Take the line back, and a copy of it is kept; then the bidder's line is written anew. If it is whole as it is"
        " shown, end it instead.",
        "take back",
    )


def lost_feed() -> Stop:
    """The stop of a last line that had a reply and has lost its line feed."""
    return Stop(
        "The line feed of the last line of the log is gone: an editor left it out.",
        ANSWERED,
        "End the line.",
        "end line",
    )


def changed_log(data: bytes, entries: Sequence[Entry]) -> Stop:
    """The stop of a log that somebody changed within the lines that have replies."""
    place, at = first_change(data, entries)
    row = data[:place].count(b"\n") + 1
    return Stop(
        f"The log was changed by hand: from byte {place} on, in line {row}, it isn't what was answered at {at}.",
        IN_JOURNAL,
        "Put the answered log back. The changed one is kept in a file next to it, and nothing else changes.",
        "put back",
    )


def common_length(one: bytes, other: bytes) -> int:
    """How many bytes two texts begin with in common."""
    low, high = 0, min(len(one), len(other))
    while low < high:
        middle = (low + high + 1) // 2
        if one[low:middle] == other[low:middle]:
            low = middle
        else:
            high = middle - 1
    return low


def first_change(data: bytes, entries: Sequence[Entry]) -> tuple[int, str]:
    """The first byte that differs from the journal, and the time of the journal's entry for it."""
    place = common_length(data, replayed(entries))
    return place, next((it.at for it in reversed(entries) if it.start <= place < it.length), entries[-1].at)


def fault_of(data: bytes, last: Entry) -> Literal["cut", "feed", "changed", "torn"] | None:
    """What is wrong with a log, by the newest entry of its journal."""
    if is_cut_begun(data, last):
        return "cut"
    if is_changed(data, last):
        return "feed" if has_lost_feed(data, last) else "changed"
    return "torn" if data != whole_lines(data) else None
