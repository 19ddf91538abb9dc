"""Kills, faults of the system and races of the desk's log, and what has to be true after each of them.

A child of this process does something to a log while strace kills it at a system call, or makes the call fail. Then a
desk starts on what is left, repairs what it reports, and everything is done again: no line with a reply may be lost,
and none may be written twice.
"""

from __future__ import annotations

import collections
import contextlib
import ctypes
import dataclasses
import os
import pathlib
import re
import resource
import subprocess
import sys
import tempfile
import time
from collections.abc import Callable, Iterable, Iterator, Mapping, Sequence
from typing import TextIO, TypeAlias

from cca_tools.desk import faults
from cca_tools.desk.journal import Journal, replayed
from cca_tools.desk.logfile import Base, Grown, LogFile, Refused, Unsure

PINS = {"award": "a" * 64, "program": "b" * 64}
FIRST, SECOND, THIRD = b"bid,east,1 0,\n", b"bid,west,0 1,\n", b"close,,,\n"
CALLS = (
    "openat,flock,fstat,newfstatat,pread64,write,pwrite64,fsync,ftruncate,link,linkat,rename,unlink,close,lseek"
).split(",")
SECONDS = 60
CALL = re.compile(r"(\w+)\((.*)")
UNTRACED = "strace isn't installed, or may not attach to a process: no desk was killed at a system call"
PR_SET_PTRACER, ANY = 0x59616D61, -1


def ok(wanted: bytes) -> list[str]:
    """The replies to a log, of whatever lines."""
    return ["ok"]


@dataclasses.dataclass(frozen=True)
class Ended:
    """What a traced child reported (nothing if it was killed), whether it was killed, and its calls in order."""

    said: str
    is_killed: bool
    calls: tuple[tuple[str, str], ...]


def child(act: Callable[[], object], ready: int, out: int) -> None:
    """The child: waits until it is traced, acts, reports the outcome, and ends."""
    try:
        ctypes.CDLL(None).prctl(PR_SET_PTRACER, ctypes.c_ulong(ANY), 0, 0, 0)
        if not os.read(ready, 1):  # (its parent is gone)
            os._exit(70)
        try:
            said = str(act())
        except (Refused, Unsure) as fault:
            said = f"{type(fault).__name__}: {fault}"
        os.write(out, said.encode())
        os._exit(0)
    except BaseException as fault:
        os.write(out, f"crash: {fault!r}".encode())
        os._exit(70)


def traced(act: Callable[[], object], *faults: str) -> Ended:
    """Runs `act` in a child whose system calls are traced, each fault injected. Raises `OSError` if that isn't
    allowed."""
    (ready, go), (result, out) = os.pipe(), os.pipe()
    pid = os.fork()
    if not pid:
        os.close(go)
        child(act, ready, out)
    os.close(ready)
    os.close(out)
    with tempfile.NamedTemporaryFile("r") as trace:
        words = ["strace", "-o", trace.name, "-e", f"trace={','.join(CALLS)}", "-e", "signal=none", "-p", str(pid)]
        words += [word for fault in faults for word in ("-e", f"inject={fault}")]
        try:
            tracer = subprocess.Popen(words, stderr=subprocess.PIPE, text=True)
        except OSError:
            tracer = None
        is_traced = tracer and tracer.stderr and "attached" in tracer.stderr.readline()
        os.write(go, b"x")
        with open(result, "rb") as said:
            text = said.read().decode()
        os.close(go)
        _, status = os.waitpid(pid, 0)
        if tracer:
            tracer.communicate(timeout=SECONDS)
        if not is_traced:
            raise OSError(UNTRACED)
        calls = tuple((found[1], found[2]) for found in map(CALL.match, trace.read().splitlines()) if found)
    return Ended(text, os.WIFSIGNALED(status), calls)


def can_trace() -> bool:
    """Whether a child can be traced."""
    try:
        return traced(lambda: "here").said == "here"
    except OSError:
        return False


def numbered(calls: Iterable[tuple[str, str]]) -> Iterator[tuple[str, int]]:
    """Each call by its name, with its number among the calls of its name."""
    seen: collections.Counter[str] = collections.Counter()
    for name, _ in calls:
        seen[name] += 1
        yield name, seen[name]


def need(right: object, *what: object) -> None:
    """Raises an error that shows what was seen, if something isn't right."""
    if not right:
        raise AssertionError(what)


def kept_beside(path: pathlib.Path) -> dict[str, bytes]:
    """The bytes of all files that are kept next to a log."""
    return {file.name: file.read_bytes() for file in path.parent.iterdir() if re.search(r"-\d+$", file.name)}


class Scene:
    """Something that is done to a log: the log before, what the child does, and what has to be true afterwards."""

    name = ""
    before = FIRST

    def __init__(self, folder: str) -> None:
        self.path = pathlib.Path(folder, "a.log")

    def open(self) -> LogFile:
        return LogFile(self.path, PINS)

    def prepare(self) -> None:
        """The log before: each line has its reply. `self.base` is the base of the child's page."""
        log = self.open()
        if self.before:
            log.append(log.base(b""), self.before, ok)
        self.log, self.base, self.answered = log, log.base(log.read()), log.read()

    def act(self) -> object:
        raise NotImplementedError

    def outcome(self) -> str:
        """What the kill left, in two words, with nothing changed."""
        return "whole" if self.path.read_bytes() == self.answered else "changed"

    def check(self) -> None:
        """Starts a desk on what is left, repairs it, and does it again. Raises `AssertionError`."""
        raise NotImplementedError

    def check_whole(self, log: LogFile, wanted: bytes) -> None:
        """The log is the expected one, nothing is wrong, and the journal is enough to rebuild it."""
        need(log.stop() is None, "a stop", log.stop())
        need(log.read() == wanted, "the log", log.read(), wanted)
        entries = Journal(pathlib.Path(f"{self.path}.desk")).entries()
        need(replayed(entries) == wanted, "the journal", entries)
        log.note_found()
        need(log.note_found() == 0, "found lines are noted once")


class Write(Scene):
    """A line is written."""

    name, text = "write", SECOND

    def act(self) -> object:
        return self.log.append(self.base, self.text, ok).was_there

    def outcome(self) -> str:
        data, whole = self.path.read_bytes(), self.answered + self.text
        if data == self.answered:
            return "not there"
        if data != whole:
            return "torn"
        last = Journal(pathlib.Path(f"{self.path}.desk")).last()
        return "answered" if last and last.length == len(data) else "there, not answered"

    def check(self) -> None:
        left = self.path.read_bytes()
        log = self.open()
        whole = self.answered + self.text
        need(whole.startswith(left) and left.startswith(self.answered), "the log after a kill", left)
        if left not in (self.answered, whole):
            stop = log.stop()
            need(stop and stop.mend == "take back", "a torn line", stop)
            log.mend("take back", "a kill")
            need(left[len(self.answered) :] in kept_beside(self.path).values(), "the torn line is kept")
        self.check_whole(self.open(), left if left == whole else self.answered)
        for was_there in (left == whole, True):
            written = log.append(self.base, self.text, ok)
            need(written.was_there == was_there, "sent again", written)
            need(written.log == whole, "sent again", written)
            self.check_whole(log, whole)


class ShortWrite(Write):
    """A line is written, and the disk takes only a part of it."""

    name = "write, full disk"

    def act(self) -> object:
        room = len(self.answered) + 5
        # (the journal is longer than the log already, and isn't written)
        resource.setrlimit(resource.RLIMIT_FSIZE, (room, resource.RLIM_INFINITY))
        return self.log.append(self.base, self.text, ok).was_there


class Cut(Scene):
    """The last line is cut off."""

    name, before = "cut", FIRST + THIRD

    def act(self) -> object:
        return self.log.cut(self.base, len(FIRST), "doubled").name

    def outcome(self) -> str:
        if self.path.read_bytes() == FIRST:
            return "cut"
        return "begun, not ended" if self.open().stop() else "not begun"

    def check(self) -> None:
        left = self.path.read_bytes()
        need(left in (FIRST, self.answered), "the log after a kill", left)
        log = self.open()
        if stop := log.stop():
            need((stop.mend, left) == ("cut again", self.answered), "a stop", stop)
            need(any(name in stop.safe for name in kept_beside(self.path)), "the kept log is named", stop)
            log.mend("cut again", "a kill")
        elif left == self.answered:
            need(log.base(left) == self.base, "no cut was noted")
            log.cut(self.base, len(FIRST), "doubled")
        self.check_whole(self.open(), FIRST)
        need(self.answered in kept_beside(self.path).values(), "the longer log is kept")
        with contextlib.suppress(Refused):
            log.append(dataclasses.replace(log.base(FIRST), epoch=self.base.epoch), THIRD, ok)
            need(False, "a page of before the cut was written")
        log.append(log.base(FIRST), THIRD, ok)
        self.check_whole(log, self.answered)


class Mend(Scene):
    """A repair of a log that somebody has damaged."""

    mend: faults.Mend = "none"
    spoilt, wanted = b"", b""

    def prepare(self) -> None:
        super().prepare()
        self.path.write_bytes(self.spoilt)
        self.left_before = kept_beside(self.path)

    def act(self) -> object:
        self.log.mend(self.mend, "by hand")
        return None

    def outcome(self) -> str:
        return "to mend still" if self.open().stop() else "mended"

    def check(self) -> None:
        log = self.open()
        if stop := log.stop():
            need(stop.allows(self.mend), "a stop", stop)
            log.mend(self.mend, "by hand")
        self.check_whole(self.open(), self.wanted)
        need(self.is_kept(kept_beside(self.path)), "kept", kept_beside(self.path))

    def is_kept(self, beside: Mapping[str, bytes]) -> bool:
        return True


class TakeBack(Mend):
    name, mend, spoilt, wanted = "take back", "take back", FIRST + SECOND + b"bid,we", FIRST + SECOND

    def is_kept(self, beside: Mapping[str, bytes]) -> bool:
        return b"bid,we" in beside.values()


class EndLine(Mend):
    name, mend, spoilt, wanted = "end line", "end line", FIRST + SECOND[:-1], FIRST + SECOND


class KeepChanged(Mend):
    name, mend, before, spoilt = "keep changed log", "keep changed log", FIRST + SECOND, FIRST.upper() + SECOND
    wanted = spoilt

    def is_kept(self, beside: Mapping[str, bytes]) -> bool:
        return {self.spoilt, self.answered} <= set(beside.values())


class PutBack(Mend):
    name, mend, before, spoilt = "put back", "put back", FIRST + SECOND, FIRST.upper() + SECOND
    wanted = FIRST + SECOND

    def is_kept(self, beside: Mapping[str, bytes]) -> bool:
        return self.spoilt in beside.values()


class Start(Scene):
    """The first start of all."""

    name = "first start"

    def prepare(self) -> None:
        self.answered = b""

    def act(self) -> object:
        return self.open().base(b"").length

    def outcome(self) -> str:
        return f"{len([kind for kind in ('', '.key', '.desk') if pathlib.Path(f'{self.path}{kind}').exists()])} files"

    def check(self) -> None:
        log = self.open()
        need(re.fullmatch(rb"[0-9a-f]{64}\n", log.key), "the key", log.key)
        self.check_whole(log, b"")
        log.append(log.base(b""), FIRST, ok)
        self.check_whole(self.open(), FIRST)
        need(self.open().key == log.key, "the key stays")


class Found(Write):
    """A start on a log with a line that has no reply of a desk."""

    name = "found"

    def prepare(self) -> None:
        super().prepare()
        with open(self.path, "ab") as file:
            file.write(self.text)

    def act(self) -> object:
        return self.open().note_found()


class Copies(Scene):
    """Copies are made over older ones."""

    name = "copies"

    def open(self) -> LogFile:
        return LogFile(self.path, PINS, self.path.parent / "copies")

    def prepare(self) -> None:
        (self.path.parent / "copies").mkdir()
        super().prepare()
        log = self.open()
        log.copy_out()
        log.append(self.base, SECOND, ok)
        self.answered = log.read()

    def act(self) -> object:
        self.log.copy_out()
        return None

    def outcome(self) -> str:
        return "old" if (self.path.parent / "copies" / "a.log").read_bytes() == FIRST else "new"

    def check(self) -> None:
        names = "a.log", "a.log.desk", "a.log.key", "a.log.posted"
        now = {name: (self.path.parent / name).read_bytes() for name in names}
        copies = {name: (self.path.parent / "copies" / name).read_bytes() for name in names}
        need(copies["a.log"] in (FIRST, FIRST + SECOND), "the log's copy", copies["a.log"])
        need(copies["a.log.key"] == now["a.log.key"], "the key's copy")
        need(now["a.log.desk"].startswith(copies["a.log.desk"]), "the journal's copy")
        need(copies["a.log.desk"].endswith(b"\n"), "the journal's copy is whole")
        log = self.open()
        log.copy_out()
        for name in names:
            need((self.path.parent / "copies" / name).read_bytes() == (self.path.parent / name).read_bytes(), name)
        self.check_whole(log, self.answered)


SCENES = Write, ShortWrite, Cut, TakeBack, EndLine, KeepChanged, PutBack, Start, Found, Copies


@contextlib.contextmanager
def staged(scene: type[Scene]) -> Iterator[Scene]:
    """A scene in a folder of its own, prepared."""
    with tempfile.TemporaryDirectory() as folder:
        it = scene(folder)
        it.prepare()
        yield it


def calls_of(scene: type[Scene]) -> tuple[tuple[str, str], ...]:
    """The calls of a scene that nothing disturbs."""
    with staged(scene) as it:
        ended = traced(it.act)
        need(not ended.is_killed and "crash" not in ended.said, scene.name, ended.said)
        return ended.calls


def kill(scene: type[Scene], call: str, number: int) -> str:
    """Kills the scene's child at this call, and tests what is left. Returns what the kill left."""
    with staged(scene) as it:
        ended = traced(it.act, f"{call}:signal=KILL:when={number}")
        need(ended.is_killed, "not killed", scene.name, call, number, ended.said)
        outcome = it.outcome()
        it.check()
        return outcome


# Races

# A process, the file for its input, and the file of its answers.
Racer: TypeAlias = tuple[int, TextIO, TextIO]


def racer(read: int, write: int) -> None:
    """A process that writes lines to logs, each at its given time."""
    with open(read) as words, open(write, "w", buffering=1) as out:
        for row in words:
            path, base, text, when = row.rstrip("\n").split("\t")
            log = LogFile(pathlib.Path(path), PINS)
            while time.time() < float(when):
                pass
            try:
                said = "there" if log.append(Base.of(base), text.encode() + b"\n", ok).was_there else "wrote"
            except Grown:
                said = "grown"
            except Refused as fault:
                said = f"refused: {fault}"
            print(said, file=out)


class Racers:
    """Two processes that write at the same time."""

    def __init__(self) -> None:
        self.both: list[Racer] = []
        for _ in range(2):
            self.both.append(self.started())

    def started(self) -> Racer:
        (words, to), (back, out) = os.pipe(), os.pipe()
        pid = os.fork()
        if not pid:
            try:
                for _, other, _ in self.both:  # (the other one waits for the end of its words)
                    other.close()
                os.close(to)
                os.close(back)
                racer(words, out)
            finally:
                os._exit(0)
        os.close(words)
        os.close(out)
        return pid, open(to, "w", buffering=1), open(back)

    def race(self, path: pathlib.Path, base: Base, texts: Sequence[str]) -> tuple[str, ...]:
        """Both outcomes, in order, after they write these lines onto one base."""
        when = time.time() + 0.01
        for (_, to, _), text in zip(self.both, texts):
            print(path, base.text(), text, when, sep="\t", file=to)
        return tuple(sorted(back.readline().strip() for _, _, back in self.both))

    def end(self) -> None:
        for pid, to, back in self.both:
            to.close()
            back.close()
            os.waitpid(pid, 0)


def race(racers: Racers, is_same: bool) -> tuple[str, ...]:
    """One race, and a test of its outcome."""
    with tempfile.TemporaryDirectory() as folder:
        path = pathlib.Path(folder, "a.log")
        log = LogFile(path, PINS)
        texts = ["close,,,", "close,,," if is_same else "bid,east,1 0,"]
        came = racers.race(path, log.base(b""), texts)
        need(came == (("there", "wrote") if is_same else ("grown", "wrote")), came)
        need(log.read() in [text.encode() + b"\n" for text in texts], log.read())
        need(log.stop() is None and log.note_found() == 0, log.stop())
        need([what for _, what, _ in log.answered_at()] == ["begun", "line"], log.answered_at())
        return came


if __name__ == "__main__":
    sys.exit("a module of tests")
