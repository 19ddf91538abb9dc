"""The program by the bytes that it had at the start, run over bytes: nobody can change either file afterwards."""

from __future__ import annotations

import fcntl
import os
import subprocess
from collections.abc import Sequence
from dataclasses import dataclass

from cca_tools.rules.stops import DONE, LIMIT, REFUSED

SECONDS = 60.0  # for one run of the program
SEALS = fcntl.F_SEAL_SEAL | fcntl.F_SEAL_SHRINK | fcntl.F_SEAL_GROW | fcntl.F_SEAL_WRITE


class NoProgram(Exception):
    """`cca` isn't there, doesn't end in its time, or ends with a status that no log explains."""


@dataclass(frozen=True)
class Ended:
    """What a run of `cca auction` printed, by lines, its status, and the book that it wrote."""

    lines: Sequence[str]
    status: int
    book: bytes


class Memory:
    """A file in memory, which is gone with this process. A sealed one is never changed again."""

    def __init__(self, name: str, data: bytes = b"", is_sealed: bool = True) -> None:
        self.handle = os.memfd_create(name, os.MFD_CLOEXEC | os.MFD_ALLOW_SEALING)
        with open(self.handle, "wb", buffering=0, closefd=False) as file:
            while data:
                data = data[file.write(data) :]
        if is_sealed:
            fcntl.fcntl(self.handle, fcntl.F_ADD_SEALS, SEALS)

    @property
    def path(self) -> str:
        """A name for opening the file in this process and in one that it starts with the handle."""
        return f"/proc/self/fd/{self.handle}"

    def read(self) -> bytes:
        """All bytes of the file."""
        return os.pread(self.handle, os.fstat(self.handle).st_size, 0)

    def close(self) -> None:
        """Lets go of the file; again is nothing."""
        handle, self.handle = self.handle, -1
        if handle >= 0:
            os.close(handle)

    def __enter__(self) -> Memory:
        return self

    def __exit__(self, *fault: object) -> None:
        self.close()

    def __del__(self) -> None:
        self.close()


class Program:
    """The program and the award, by their bytes."""

    def __init__(self, program: bytes, award: bytes) -> None:
        self._program, self._award = Memory("cca", program), Memory("award", award)

    def auction(self, log: bytes) -> Ended:
        """What `cca auction` answers to a log. Raises `NoProgram`."""
        with Memory("log", log) as log_file, Memory("book", is_sealed=False) as book:
            status, lines = self._run("auction", self._award, log_file, book)
            if status not in (DONE, REFUSED, LIMIT):
                last = f", and its last line is `{lines[-1]}`" if lines else ""
                raise NoProgram(f"The program ended with status {status}, which no log leads to{last}.")
            return Ended(lines, status, book.read())

    def winners(self, book: bytes) -> int | None:
        """How many winners `cca win` finds for a book; None if a limit stops it. Raises `NoProgram`."""
        with Memory("book", book) as file:
            status, lines = self._run("win", file)
            return sum(line.startswith("winner ") for line in lines) if status == DONE else None

    def _run(self, command: str, *files: Memory) -> tuple[int, list[str]]:
        """The status of a command of the program over these files, and the lines that it prints."""
        try:
            run = subprocess.run(
                ["cca", command, *(file.path for file in files)],
                executable=self._program.path,
                pass_fds=[file.handle for file in (self._program, *files)],
                stdin=subprocess.DEVNULL,
                stdout=subprocess.PIPE,
                stderr=subprocess.DEVNULL,
                timeout=SECONDS,
                check=False,
            )
        except subprocess.TimeoutExpired:
            raise NoProgram(f"The program doesn't answer within {SECONDS:g} s.") from None
        except OSError as fault:
            raise NoProgram(f"The program can't be started: {fault.strerror}.") from None
        return run.returncode, run.stdout.decode("ascii", "replace").splitlines()
