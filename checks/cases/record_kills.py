"""Kills of the desk's log at drawn moments of a drawn day, and what has to be on the disk after the next start.

A child writes lines, closes, cuts, repairs and the last line of the set, and kills itself at one of its writes, syncs,
cuts and links: before the call, or in the middle of a write. After each step it reports what anybody has seen. Then a
desk starts on what is left, and does what its stop asks for. Then every line with a reply and every posted line that
was seen has to be in log, journal and LOG.posted, and the whole record has to agree.
"""

from __future__ import annotations

import contextlib
import json
import os
import pathlib
import random
import signal
import tempfile
from collections.abc import Callable, Sequence
from typing import Any, TypeAlias

from checks.cases.attacks import closes_of
from checks.cases.samples import sample

from cca_tools.desk.faults import Mend
from cca_tools.desk.logfile import LogFile
from cca_tools.desk.record import Tester
from cca_tools.rules.auction import replay
from cca_tools.rules.award import read_award
from cca_tools.rules.log import read_log
from cca_tools.rules.seals import sum_of

AWARD = sample("sample.award")
RULES = read_award(AWARD)
PINS = {"award": sum_of(AWARD), "program": "b" * 64}
CLOSE = b"close,,,\n"
BIDS = [f"bid,{name},{count},\n".encode() for name in ("east", "west") for count in range(4)]
CALLS = "write", "pwrite", "fsync", "ftruncate", "link", "unlink", "replace"
HAND_MENDS: tuple[Mend, ...] = ("put back", "keep changed log")
STEPS = 12
# What a child reports: the log and LOG.posted as texts, and what it does next.
Seen: TypeAlias = dict[str, str]
PARTLY = 0.4  # of the kills at a write


def closes(log: bytes) -> tuple[Sequence[int], bool]:
    """The closes of a log, in the form for `LogFile.post`."""
    return closes_of(RULES, log)


def replies(text: bytes) -> Callable[[bytes], list[str]]:
    """The replies to the last lines of a log."""
    return lambda log: [it.text() for it in replay(RULES, read_log(log, RULES)).replies][-text.count(b"\n") :]


class Acting:
    """The child: a day of drawn steps. `report` is called with what was seen after each."""

    def __init__(self, path: pathlib.Path, draw: random.Random, report: Callable[[Seen], None]) -> None:
        self.path, self.draw, self.report = path, draw, report

    def act(self) -> None:
        """Does all steps."""
        self.log = LogFile(self.path, PINS)
        self.seen("started")
        for _ in range(STEPS):
            self.step()
        while not closes(self.log.read())[1]:
            self.write(CLOSE)
        self.posted(True)

    def step(self) -> None:
        """Does a drawn step."""
        data = self.log.read()
        ends, _ = closes(data)
        kind = self.draw.choice(("line", "line", "lines", "close", "close", "back", "reopened", "hand"))
        if kind == "back" and data:
            self.cut(data, self.draw.choice([0, *(end for end in ends if end < len(data))]), False)
        elif kind == "reopened" and ends and ends[-1] == len(data) and not data[: -len(CLOSE)].endswith(CLOSE):
            self.cut(data, len(data) - len(CLOSE), True)
        elif kind == "hand" and data:
            self.change(data)
        elif kind == "close":
            self.write(CLOSE)
        else:
            self.write(b"".join(self.draw.choices(BIDS, k=1 if kind == "line" else 3)))

    def seen(self, doing: str) -> None:
        """Reports what anybody has seen, and what is done next."""
        self.report({"log": self.log.read().decode(), "posted": self.log.posted().decode(), "doing": doing})

    def write(self, text: bytes) -> None:
        """Writes lines; nobody has their replies before that."""
        self.seen("write")
        self.log.append(self.log.base(self.log.read()), text, replies(text))
        self.seen("post")
        self.posted(False)

    def cut(self, data: bytes, length: int, stay: bool) -> None:
        """Cuts the log."""
        self.seen("cut")
        self.log.cut(self.log.base(data), length, "a reason", stay)
        self.posted(False)

    def change(self, data: bytes) -> None:
        """Somebody changes the log with an editor, and it is put back or kept."""
        self.seen("hand")
        other = data.replace(b"bid,east", b"bid,west", 1)
        if other != data:
            self.path.write_bytes(other)
            self.log.mend(self.draw.choice(HAND_MENDS), "a reason")
            self.posted(False)

    def posted(self, is_publish: bool) -> None:
        """Posts what is due."""
        self.log.post(closes, is_publish)
        self.seen("posted")


class Killer:
    """Kills this process at a number of its calls, and before that lets them through."""

    def __init__(self, number: int, draw: random.Random) -> None:
        self.left, self.draw = number, draw
        for name in CALLS:
            setattr(os, name, self.watched(name, getattr(os, name)))

    def watched(self, name: str, call: Callable[..., object]) -> Callable[..., object]:
        """The call, wrapped so that it counts `left` down to the kill."""

        def counted(*words: Any, **more: Any) -> object:
            self.left -= 1
            if not self.left:
                if name == "write" and self.draw.random() < PARTLY:
                    call(words[0], words[1][: self.draw.randrange(1, max(2, len(words[1])))])
                os.kill(os.getpid(), signal.SIGKILL)
            return call(*words, **more)

        return counted


def child(path: pathlib.Path, number: int, draw: random.Random, out: int) -> None:
    """The child process."""
    write = os.write

    def report(state: Seen) -> None:
        write(out, json.dumps(state).encode() + b"\n")

    try:
        Killer(number, draw)
        Acting(path, draw, report).act()
        os._exit(0)
    except BaseException as fault:
        write(out, json.dumps({"crash": repr(fault)}).encode() + b"\n")
        os._exit(70)


def run(path: pathlib.Path, number: int, draw: random.Random) -> tuple[bool, list[Seen]]:
    """Runs a child until it is killed at this call. Returns whether it was, and what it reported."""
    read, out = os.pipe()
    pid = os.fork()
    if not pid:
        os.close(read)
        child(path, number, draw, out)
    os.close(out)
    with open(read) as states:
        seen = [json.loads(line) for line in states]
    _, status = os.waitpid(pid, 0)
    need(not seen or "crash" not in seen[-1], "a crash", seen[-1:])
    return os.WIFSIGNALED(status), seen


def need(right: object, *what: object) -> None:
    if not right:
        raise AssertionError(what)


def started(path: pathlib.Path) -> LogFile:
    """A desk's log that is started on what a kill has left, and does what its stops ask for."""
    log = LogFile(path, PINS)
    for _ in range(3):
        stop = log.stop()
        if stop is None:
            break
        log.mend(stop.mend, "after a kill")
    need(log.stop() is None, "a stop that stays", log.stop())
    log.note_found()
    log.post(closes)
    return log


def check(path: pathlib.Path, seen: Sequence[Seen]) -> str:
    """Starts a desk on what a kill has left, and tests it. Returns a description of what the kill left."""
    left = (path.with_name("a.log.posted").read_bytes() if path.with_name("a.log.posted").exists() else b"").count(
        b"\n"
    )
    log = started(path)
    need_agreed(path, log)
    posted = log.posted()
    if seen:
        last = seen[-1]
        need(posted.startswith(last["posted"].encode()), "a posted line that was seen is gone", last, posted)
        need_answered(last, log.read())
    need(log.post(closes) == 0 and LogFile(path, PINS).posted() == posted, "a line is posted twice")
    return "LOG.posted was short" if 0 < left < posted.count(b"\n") else "LOG.posted was whole"


def need_answered(last: Seen, log: bytes) -> None:
    """Tests that every line with a reply is in the log, if nothing was under way that takes lines away."""
    answered = last["log"].encode()
    if last["doing"] in ("write", "post", "posted", "started"):
        need(log.startswith(answered), "an answered line is gone", last, log)
    elif last["doing"] == "cut":
        need(log.startswith(answered) or answered.startswith(log), "the log after a cut", last, log)
    else:
        changed = answered.replace(b"bid,east", b"bid,west", 1)
        need(log in (answered, changed), "the log after a change", last, log)


def need_agreed(path: pathlib.Path, log: LogFile) -> None:
    """Tests that log, journal and LOG.posted agree in all parts."""
    journal = path.with_name("a.log.desk").read_bytes()
    record = Tester(AWARD, log.key).record(journal)
    need(record.log == log.read(), "the journal leads to another log")
    need(record.posted == log.posted(), "the posted lines aren't those of the journal")
    need(log.posted() == path.with_name("a.log.posted").read_bytes(), "LOG.posted")


def kill(draw: random.Random, most: int = 250) -> tuple[str, str] | None:
    """One kill of a drawn day at a drawn call, tested. Returns what the kill left; None if the day ended before it."""
    with tempfile.TemporaryDirectory() as folder:
        path = pathlib.Path(folder, "a.log")
        is_killed, seen = run(path, draw.randrange(1, most), draw)
        with contextlib.suppress(IndexError):
            return (check(path, seen), seen[-1]["doing"]) if is_killed else None
        return check(path, seen), "first start"


if __name__ == "__main__":
    raise SystemExit("a module of tests")
