"""Runs programs under ptrace: the calls of the system that they make, and calls that fail, do less, or meet a signal.

Only for Linux on x86-64. Calls count from the first one that `cca` makes itself, so that no fault hits the loader.
`traced.c` does it, and is compiled here: a process that follows each stop in Python would take some ten times as long.
"""

from __future__ import annotations

import array
import ctypes
import errno
import os
import pathlib
import platform
import signal
import socket
import struct
import subprocess
from collections.abc import Collection, Mapping, Sequence
from typing import NamedTuple

SOURCE = pathlib.Path(__file__).with_name("traced.c")
NUMBERS = {
    "read": 0,
    "write": 1,
    "close": 3,
    "lseek": 8,
    "fstat": 5,
    "mmap": 9,
    "munmap": 11,
    "brk": 12,
    "pread64": 17,
    "pwrite64": 18,
    "mremap": 25,
    "socket": 41,
    "fork": 57,
    "vfork": 58,
    "fcntl": 72,
    "flock": 73,
    "fsync": 74,
    "ftruncate": 77,
    "rename": 82,
    "mkdir": 83,
    "rmdir": 84,
    "link": 86,
    "unlink": 87,
    "readlink": 89,
    "getdents64": 217,
    "exit_group": 231,
    "openat": 257,
    "newfstatat": 262,
    "unlinkat": 263,
    "linkat": 265,
    "readlinkat": 267,
    "getrandom": 318,
    "statx": 332,
}
NAMES = {number: name for name, number in NUMBERS.items()}
FOR_EVER = 2**62
# The calls that are always looked at: the first call of a program, and the calls whose answers are noted.
ALWAYS = ("statx", "write", "fsync")
TRACED, CLOSED, NO_XFSZ, NO_ERRORS = 1, 2, 4, 8
# The first call of the program, and the path in it.
BEGIN = ("statx", "/proc/self/fd/1")
ANSWER, SHORT, SIGNAL = range(3)
# As in traced.c.
REQUEST, FAULT, NUMBER = struct.Struct("=8q"), struct.Struct("=5q"), struct.Struct("=q")
REPLY, COUNTS, CALL = struct.Struct("=4q"), struct.Struct("=512q"), struct.Struct("=6q")
MOST_BYTES = 2**20

LIBC = ctypes.CDLL(None, use_errno=True)


class Fault(NamedTuple):
    """What happens to the calls of a name from number `first` to number `last`, counted from 1.

    `how` is an error (`EIO`) or `0`, which the call returns without being made; `short N`, a call for at most N bytes;
    or a signal (`SIGTERM`), which comes as the call is made.
    """

    call: str
    first: int
    last: int
    how: str

    def packed(self) -> bytes:
        if is_signal(self.how):
            kind, value = SIGNAL, int(signal.Signals[self.how])
        elif is_answer(self.how):
            kind, value = ANSWER, 0 if self.how == "0" else -int(getattr(errno, self.how))
        else:
            kind, value = SHORT, int(self.how.split()[1])
        return FAULT.pack(NUMBERS[self.call], self.first, self.last, kind, value)


class Call(NamedTuple):
    """A call that met a fault, or is a `write`, an `fsync` or the end: its number among the calls of the name.

    `file` is its first argument, `how` the fault that it met. `answer` is None if it isn't noted, or if the process
    ended in the call.
    """

    name: str
    number: int
    file: int
    how: str
    answer: int | None


class Traced(NamedTuple):
    """How a process ended: its status, minus the number of a signal that ended it, and its calls.

    `counts` has the number of its calls of each name that was looked at. `has_begun` is whether it made a call of its
    own, and `is_late` whether it was killed since its time was over. A process that isn't traced has no calls.
    """

    status: int
    calls: list[Call]
    counts: dict[str, int]
    has_begun: bool
    is_late: bool


class Start(NamedTuple):
    """How a process starts: its command line, its folder, its standard streams, its user, a limit (`RLIMIT_..` and a
    value), which of its streams are closed, and the first call that counts, with the path in it."""

    words: Sequence[str]
    folder: str = "."
    streams: tuple[int, int, int] = (0, 1, 2)
    user: int = -1
    limit: tuple[int, int] = (-1, 0)
    is_closed: bool = False
    ignores_xfsz: bool = False
    has_no_errors: bool = False
    begin: tuple[str, str] = BEGIN


class Tracer:
    """A process that runs programs, one after another."""

    def __init__(self, program: str, variables: Mapping[str, str] | None = None) -> None:
        """`variables` is the environment of the programs, by default the one of this process."""
        self.socket, other = socket.socketpair(socket.AF_UNIX, socket.SOCK_SEQPACKET)
        with other:
            self.process = subprocess.Popen([program], stdin=other.fileno(), env=variables)

    def run(
        self,
        start: Start,
        seconds: float,
        faults: Sequence[Fault] = (),
        names: Collection[str] = (),
        is_traced: bool = True,
    ) -> Traced:
        """Runs a program with these faults, and kills it after this many seconds.

        It looks at the calls of the faults, of `names`, and of `ALWAYS`.
        """
        call, path = start.begin
        looked_at = {*ALWAYS, call, *names, *(fault.call for fault in faults)}
        flags = TRACED * is_traced | CLOSED * start.is_closed | NO_XFSZ * start.ignores_xfsz
        flags |= NO_ERRORS * start.has_no_errors
        numbers = int(seconds * 1000), start.user, flags, *start.limit, NUMBERS[call], len(faults), len(looked_at)
        request = [
            REQUEST.pack(*numbers),
            *(fault.packed() for fault in faults),
            *(NUMBER.pack(NUMBERS[name]) for name in sorted(looked_at)),
            *(os.fsencode(word) + b"\0" for word in (path, start.folder, *start.words)),
        ]
        rights = [(socket.SOL_SOCKET, socket.SCM_RIGHTS, array.array("i", start.streams))]
        self.socket.sendmsg([b"".join(request)], rights)
        return unpacked(self.socket.recv(MOST_BYTES), faults)

    def end(self) -> None:
        self.socket.close()
        self.process.wait()


def unpacked(reply: bytes, faults: Sequence[Fault]) -> Traced:
    """What the tracer reports about a run."""
    status, is_late, has_begun, _ = REPLY.unpack_from(reply)
    numbers = COUNTS.unpack_from(reply, REPLY.size)
    calls = []
    for number, count, file, fault, answer, has_answer in CALL.iter_unpack(reply[REPLY.size + COUNTS.size :]):
        how = faults[fault].how if fault >= 0 else ""
        calls.append(Call(NAMES[number], count, file, how, answer if has_answer else None))
    counts = {name: numbers[number] for name, number in NUMBERS.items() if numbers[number]}
    return Traced(status, calls, counts, bool(has_begun), bool(is_late))


def compiled(folder: pathlib.Path) -> str:
    """The program of `traced.c`, which is compiled into this folder."""
    program = folder / "traced"
    subprocess.run(["cc", "-O1", "-o", program, SOURCE], check=True)
    return str(program)


def can_trace(program: str, traced: str) -> bool:
    """Whether the program can be traced here, so that a call of it fails when it is to fail."""
    if platform.system() != "Linux" or platform.machine() != "x86_64":
        return False
    tracer = Tracer(program=traced)
    with open(os.devnull, "r+b") as null:
        start = Start([program, "win"], streams=(null.fileno(), null.fileno(), null.fileno()))
        told = tracer.run(start, 60, (Fault("write", 1, FOR_EVER, "EIO"),))
    tracer.end()
    return (told.status, told.has_begun) == (5, True)


def shown(faults: Sequence[Fault]) -> str:
    """A description of the faults."""
    return ", ".join(
        f"{it.call} {it.first}"
        + ("" if it.last == it.first else " and later" if it.last >= FOR_EVER else f" to {it.last}")
        + f": {it.how}"
        for it in faults
    )


def is_signal(how: str) -> bool:
    """Whether a fault is a signal."""
    return how.startswith("SIG")


def is_answer(how: str) -> bool:
    """Whether a fault is an answer to a call that isn't made: an error, or 0."""
    return how == "0" or hasattr(errno, how)
