"""Lines of a rehearsal that wait for the desk: the file that `tools/rehearse` writes.

The file is split by its closes as the log is. The lines of the part that belongs to the open round, or to the lists,
wait until the log has them; each is taken through the same pages as a line that is typed. Where the rehearsal leaves
the closes to the desk, each one that the desk has written is appended to the file, and the rehearsal goes on.
"""

from __future__ import annotations

import os
from collections.abc import Iterable, Iterator
from pathlib import Path

from cca_tools.desk.lines import CLOSE
from cca_tools.rules.auction import Auction
from cca_tools.rules.view import record_text


class Feed:
    """The file of a rehearsal."""

    def __init__(self, path: Path) -> None:
        self.path = path

    def parts(self) -> list[list[bytes]]:
        """The whole lines of the file, by its closes; one part more than closes."""
        data = self.path.read_bytes() if self.path.exists() else b""
        found: list[list[bytes]] = [[]]
        for line in data[: data.rfind(b"\n") + 1].splitlines(True):
            if line == CLOSE:
                found.append([])
            else:
                found[-1].append(line)
        return found

    def waiting(self, auction: Auction) -> list[bytes]:
        """The lines of the open round, or of the lists, that the log doesn't have yet."""
        parts, place = self.parts(), len(auction.rounds)
        if auction.stage == "closed" or place >= len(parts):
            return []
        return missing(parts[place], records_since_close(auction))

    def follow(self, auction: Auction) -> None:
        """Appends the closes that the log has and the file hasn't."""
        lacking = len(auction.rounds) + (auction.stage == "closed") - len(self.parts()) + 1
        if lacking <= 0:
            return
        fd = os.open(self.path, os.O_WRONLY | os.O_APPEND | os.O_CREAT | os.O_NOFOLLOW, 0o600)
        try:
            os.write(fd, CLOSE * lacking)
        finally:
            os.close(fd)


def records_since_close(auction: Auction) -> Iterator[bytes]:
    """The records after the last admitted close."""
    start = 0
    for place, (line, reply) in enumerate(zip(auction.lines, auction.replies), 1):
        if line.kind == "close" and reply.is_ok:
            start = place
    for line in auction.lines[start:]:
        if line.kind != "close":
            yield record_text(line).encode() + b"\n"


def missing(wanted: list[bytes], had: Iterable[bytes]) -> list[bytes]:
    """The lines from the first one on that isn't among those that were had, in order."""
    place = 0
    for record in had:
        place += place < len(wanted) and wanted[place] == record
    return wanted[place:]
