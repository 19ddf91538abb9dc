"""The checksums of the beginnings of a text that grows at its end and is cut there.

Each posted line covers the log and all lines before it. To hash them again for each line would take a time that grows
with the square of their number.
"""

from __future__ import annotations

import hashlib

STEP = 4_096  # bytes


class Sums:
    """A text with the states of its checksum (SHA-256) after each `STEP` bytes and at its end, so that the checksum of
    any beginning takes at most one step."""

    def __init__(self, data: bytes = b"") -> None:
        self.data = bytearray()
        self._kept, self._whole = [hashlib.sha256()], hashlib.sha256()
        self.add(data)

    def add(self, text: bytes) -> None:
        """Puts bytes at the end of the text."""
        self.data += text
        self._whole.update(text)
        for end in range(len(self._kept) * STEP, len(self.data) + 1, STEP):
            state = self._kept[-1].copy()
            state.update(self.data[end - STEP : end])
            self._kept.append(state)

    def cut(self, length: int) -> None:
        """Leaves only the first bytes of the text; none if the length is negative."""
        length = max(0, length)
        if length < len(self.data):
            del self.data[length:]
            del self._kept[length // STEP + 1 :]
            self._whole = self._state(length)

    def sum(self, length: int | None = None, more: bytes = b"") -> str:
        """The checksum of the first bytes, or of all, with other bytes after them."""
        state = self._whole.copy() if length is None else self._state(min(length, len(self.data)))
        state.update(more)
        return state.hexdigest()

    def _state(self, length: int) -> hashlib._Hash:
        """The state after the first bytes."""
        step = length // STEP
        state = self._kept[step].copy()
        state.update(self.data[step * STEP : length])
        return state
