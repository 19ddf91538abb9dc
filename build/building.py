"""What `./cca` and `./trial` share: the program's sources with their checksums, and the processes that build it."""

from __future__ import annotations

import contextlib
import fcntl
import hashlib
import os
import pathlib
import shutil
import signal
import subprocess
import sys
import tempfile
import time
from collections.abc import Callable, Iterator, Mapping, Sequence
from typing import TextIO

ROOT = pathlib.Path(__file__).resolve().parents[1]
OUT = ROOT / "crates" / "cca" / "out"
FAILED = 70
# The libraries that each crate uses.
Uses = dict[str, list[str]]
# The signals that would end this call, and those that came, in order.
NOTED = (signal.SIGINT, signal.SIGTERM, signal.SIGHUP)
signals: list[int] = []


class NotBuilt(Exception):
    """The reason for the missing new program, and the status to end with."""

    def __init__(self, why: str, status: int = FAILED) -> None:
        super().__init__(why)
        self.status = status


NO_ROOM = "No space left on device"


def remedy() -> str:
    """What to do if temporary files have no room."""
    place = os.environ.get("TMPDIR") or "/tmp"
    return f"Temporary files have no room in {place}: make room there, or set TMPDIR to a folder that has some."


@contextlib.contextmanager
def temporary_folder(prefix: str) -> Iterator[pathlib.Path]:
    """A new folder for temporary files, which is removed with the block. A disk that is full is a `NotBuilt`."""
    try:
        made = tempfile.TemporaryDirectory(prefix=prefix)
    except OSError:
        raise NotBuilt(remedy()) from None
    with made as folder:
        try:
            yield pathlib.Path(folder)
        except OSError as error:
            # (copying a tree collects its errors)
            if NO_ROOM not in str(error):
                raise
            raise NotBuilt(remedy()) from None


def below(uses: Uses, top: str) -> set[str]:
    """The crate and all that it is made of."""
    found: set[str] = set()
    left = [top]
    while left:
        name = left.pop()
        if name in uses and name not in found:
            found.add(name)
            left += uses[name]
    return found


def crates(root: pathlib.Path = ROOT) -> Uses:
    """The crates that the program is made of."""
    lines = [line.partition("#")[0].partition(":") for line in (root / "crates.txt").read_text().splitlines()]
    uses = {name.strip(): libraries.split() for name, colon, libraries in lines if colon}
    return {name: uses[name] for name in sorted(below(uses, "cca"))}


def sources(name: str, root: pathlib.Path = ROOT) -> Iterator[str]:
    """The files that a crate is made of, in order."""
    for part in ("src", "specs", "proofs"):
        for folder, folders, names in os.walk(root / "crates" / name / part):
            folders.sort()
            yield from (f"{folder}/{it}" for it in sorted(names) if not it.startswith("."))


def sum_of(name: str, libraries: Sequence[str], root: pathlib.Path = ROOT) -> str:
    """The checksum of a crate's sources and of its libraries' names."""
    found = hashlib.sha256(repr(libraries).encode())
    for path in sources(name, root):
        with open(path, "rb", buffering=0) as file:
            text = file.read()
        found.update(os.fsencode(path[len(str(root)) :]) + b" %d\n" % len(text) + text)
    return found.hexdigest()


def sums_of(uses: Uses, root: pathlib.Path = ROOT) -> str:
    """A line for each crate of the program, with its checksum."""
    return "".join(f"{name} {sum_of(name, uses[name], root)}\n" for name in uses)


def kit_of(tool: str) -> str:
    """The line that names the kit of this `rt` and its logic.

    The kit has it in the file KIT-ID, so that a call need not start `rt version`.
    """
    with contextlib.suppress(OSError, UnicodeDecodeError):
        return pathlib.Path(tool).resolve().parents[1].joinpath("KIT-ID").read_text(encoding="utf-8").strip()
    said = subprocess.run([tool, "version"], stdin=subprocess.DEVNULL, capture_output=True, env=plain_variables())
    return said.stdout.decode(errors="replace").strip()


def kit_here() -> str:
    """The line of the kit whose `rt` is on the PATH, or nothing if there is none."""
    tool = shutil.which("rt")
    return kit_of(tool) if tool else ""


def plain_variables(**more: str) -> dict[str, str]:
    """The environment without what makes Python or git read other files than they would."""
    return {name: it for name, it in os.environ.items() if not name.startswith(("PYTHON", "GIT_"))} | more


class Program:
    """A program that is built here, with what it is made of in the file `sums`; `new` is to take its place.

    `sums` has a line for each crate, and then two: the kit, and the SHA-256 of the program that this kit made.
    """

    def __init__(self, name: str) -> None:
        self.path, self.sums, self.new = (OUT / f"{name}.{it}" for it in ("built", "sum", "new"))

    def read_sums(self) -> tuple[str, str, str] | None:
        """The lines of the crates, the kit's line, and the SHA-256 of the program; None if they aren't all there."""
        try:
            *made_of, kit, program = self.sums.read_text(encoding="utf-8").splitlines(keepends=True)
        except (OSError, ValueError):
            return None
        if not kit.startswith("kit ") or not program.startswith("program "):
            return None
        return "".join(made_of), kit[4:].strip(), program[8:].strip()

    def why_not(self, uses: Uses) -> str:
        """Why the program has to be built: nothing if it is there, whole, and made of these sources by the kit here."""
        if not self.path.is_file():
            return "isn't built yet"
        kept = self.read_sums()
        if not kept or kept[0] != sums_of(uses):
            return "is of other sources"
        if kit_here() not in ("", kept[1]):
            return f"is of another kit, {kept[1]}"
        if not os.access(self.path, os.R_OK | os.X_OK) or sha256(self.path) != kept[2]:
            return "isn't the program that was built here"
        return ""

    def take_new(self, made_of: str, kit: str) -> None:
        """Puts the new program in its place in one step. Without `made_of`, its sums, the next call builds another.

        Both files and their folder are on the disk before it returns.
        """
        synced(self.new)
        text = f"{made_of}kit {kit}\nprogram {sha256(self.new)}\n"
        new_sums = self.sums.with_suffix(".sum.new")
        new_sums.write_text(text if made_of else "", encoding="utf-8")
        synced(new_sums)
        os.replace(self.new, self.path)
        os.replace(new_sums, self.sums)
        synced(OUT)


def sha256(path: pathlib.Path) -> str:
    """The SHA-256 of a file."""
    with open(path, "rb") as file:
        return hashlib.file_digest(file, "sha256").hexdigest()


def synced(path: pathlib.Path) -> None:
    """Has the system write a file, or a folder's entries, to the disk."""
    to = os.open(path, os.O_RDONLY)
    try:
        os.fsync(to)
    finally:
        os.close(to)


def reserve_error_stream() -> None:
    """Takes the place of standard error if that is closed, so that no file that is opened later gets the messages."""
    try:
        os.fstat(2)
    except OSError:
        nowhere = os.open(os.devnull, os.O_RDWR)
        if nowhere != 2:
            os.dup2(nowhere, 2)
            os.close(nowhere)
        else:
            os.set_inheritable(2, True)


def has_screen() -> bool:
    """Whether standard error goes to a terminal."""
    return sys.stderr is not None and sys.stderr.isatty()


def say(text: str, end: str = "\n") -> None:
    """Prints to standard error, if that is open, and in a terminal over the line that is there."""
    line = "\r\033[K" if has_screen() else ""
    with contextlib.suppress(OSError):
        # (past the stream of Python, which would try once more as it ends)
        os.write(2, f"{line}{text}{end}".encode(errors="replace"))


def note_signals() -> None:
    """From here on a signal that would end this call is noted in `signals`, unless the caller ignores it."""
    for number in NOTED:
        if signal.getsignal(number) != signal.SIG_IGN:
            signal.signal(number, lambda number, _: signals.append(number))
    # (Ctrl-C has waited since the first line of the script)
    signal.pthread_sigmask(signal.SIG_UNBLOCK, {signal.SIGINT})


def stop_noting_signals() -> None:
    """From here on a signal ends this call at once, unless the caller ignores it."""
    for number in NOTED:
        if signal.getsignal(number) != signal.SIG_IGN:
            signal.signal(number, signal.SIG_DFL)


def has_ended(process: subprocess.Popen[bytes], seconds: float) -> bool:
    """Waits this long, and returns whether the process has ended."""
    with contextlib.suppress(subprocess.TimeoutExpired):
        process.wait(seconds)
    return process.returncode is not None


def end(process: subprocess.Popen[bytes]) -> None:
    """Ends the process and its group, if it still runs."""
    for number in (signal.SIGTERM, signal.SIGKILL) if process.poll() is None else ():
        with contextlib.suppress(ProcessLookupError):
            os.killpg(process.pid, number)
        has_ended(process, 5)


# Ends a group of processes once this process has ended, also by SIGKILL: that closes the input of this program. At
# SIGTERM `rt` ends what it has started in other groups.
WATCHER = """
import os, signal, sys, time
sys.stdin.read()
try:
    os.killpg(int(sys.argv[1]), signal.SIGTERM)
    for _ in range(50):
        time.sleep(0.1)
        os.killpg(int(sys.argv[1]), 0)
    os.killpg(int(sys.argv[1]), signal.SIGKILL)
except ProcessLookupError:
    pass
"""


@contextlib.contextmanager
def ended_with_this(group: int) -> Iterator[None]:
    """Ends a group of processes if this process is killed before the block is left."""
    words = [sys.executable, "-ISc", WATCHER, str(group)]
    watcher = subprocess.Popen(words, stdin=subprocess.PIPE, start_new_session=True)
    try:
        yield
    finally:
        watcher.kill()
        watcher.communicate()


@contextlib.contextmanager
def running(
    words: Sequence[str], folder: pathlib.Path, log: pathlib.Path, more: Mapping[str, str] | None = None
) -> Iterator[subprocess.Popen[bytes]]:
    """A process with `more` variables that appends to a log. It is ended with its group when the block is left.

    It is also ended if this process is killed.
    """
    with open(log, "ab") as to:
        process = subprocess.Popen(
            words,
            cwd=folder,
            env=plain_variables(**(more or {})),
            stdin=subprocess.DEVNULL,
            stdout=to,
            stderr=to,
            start_new_session=True,
        )
    with ended_with_this(process.pid):
        try:
            yield process
        finally:
            end(process)


def alone(path: pathlib.Path, wait: Callable[[], None]) -> TextIO:
    """Keeps other calls out by the lock at this path until it is closed.

    Calls `wait` twice a second while another call has it. A folder that this user may not write is a `NotBuilt`.
    """
    try:
        path.parent.mkdir(parents=True, exist_ok=True)
        lock = open(path, "w")
    except OSError as error:
        why = f"{path.parent} can't be written ({error.strerror}), so nothing is built there"
        raise NotBuilt(f"{why}: a user who may write there builds it once, for all.") from None
    while True:
        try:
            fcntl.flock(lock, fcntl.LOCK_EX | fcntl.LOCK_NB)
            return lock
        except BlockingIOError:
            wait()
            time.sleep(0.5)
