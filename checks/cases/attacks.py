"""Attacks on the record of an auction's day, by an auctioneer with an editor, all files and the key, and by a bidder.

A day is a list of steps, and the desk's own log writes its files, by a clock of this module. So the strongest attack is
another list of steps for the same day, with the key and the times unchanged: all parts of its files agree. Such an
attack is found only by lines that somebody noted.
"""

from __future__ import annotations

import contextlib
import dataclasses
import datetime
import io
import itertools
import os
import pathlib
import re
import subprocess
import tempfile
import unittest.mock
from collections.abc import Callable, Iterable, Iterator, Mapping, Sequence
from typing import Any

from checks.cases.samples import sample, taking

from cca_tools.desk.journal import Entry, chained, line_sum
from cca_tools.desk.logfile import LogFile
from cca_tools.desk.replays import replayed_log
from cca_tools.rules.auction import replay
from cca_tools.rules.award import Award, read_award
from cca_tools.rules.log import read_log
from cca_tools.rules.seals import sum_of
from cca_tools.rules.stops import Stop

KEY = b"0123456789abcdef" * 4 + b"\n"
AWARD, LOG, CERT = sample("spectrum.award"), sample("spectrum.log"), sample("spectrum.cert")
CLOSE = b"close,,,\n"
WRONG = b"bid,tarn,1 0 0 0,\n"
PATH = os.environ.get("CCA_PROGRAM", "")
PROGRAM = {"program": "proved with a kit, by its own mark", "tools": "version 1"}
START = datetime.datetime(2026, 12, 1, 9, tzinfo=datetime.timezone.utc)
seal, journal, publish = map(taking, ("seal", "journal", "publish"))


@dataclasses.dataclass(frozen=True)
class Step:
    """A step of the day: lines that are written, a cut after a close, a close that is taken back, or the set. It also
    has the seconds by which it is later than its minute."""

    text: bytes = b""
    back: int | None = None
    why: str = ""
    is_publish: bool = False
    late: int = 0
    minute: int = 0

    @property
    def is_reopened(self) -> bool:
        """Whether only the last close is taken back."""
        return not self.text and self.back is None and not self.is_publish


def rounds(log: bytes) -> list[bytes]:
    """The lines of a log, up to and with each close, and what is after the last one."""
    parts = [part + CLOSE for part in log.split(CLOSE)]
    return [*parts[:-1], parts[-1].removesuffix(CLOSE)]


def honest(log: bytes = LOG) -> list[Step]:
    """The day: the first round is closed too early and that close is taken back; the second one is held again; a line
    comes after the end."""
    first, *others, last = rounds(log)
    one, rest = first.split(b"\n", 1)
    steps = [
        Step(one + b"\n" + CLOSE),
        Step(why="closed too early"),
        Step(rest),
        Step(WRONG + CLOSE),
        Step(back=1, why="the line of another bidder"),
        *map(Step, others),
        Step(last),
        Step(is_publish=True),
    ]
    return [dataclasses.replace(it, minute=minute) for minute, it in enumerate(steps, 1)]


@dataclasses.dataclass(frozen=True)
class Files:
    """The files that are published of a day."""

    award: bytes
    log: bytes
    journal: bytes
    posted: bytes
    kept: Mapping[str, bytes]
    key: bytes = KEY
    is_made_again: bool = False  # as a whole, by the desk's own log

    def but(self, **others: Any) -> Files:
        """These files, some of them changed by an editor."""
        return dataclasses.replace(self, is_made_again=False, **others)


class Clock:
    """A clock that is a second later at each call."""

    def __init__(self) -> None:
        self.time = START

    def now(self) -> str:
        """The time as an entry has it."""
        self.time += datetime.timedelta(seconds=1)
        return self.time.isoformat(timespec="milliseconds")


def closes_of(award: Award, log: bytes) -> tuple[Sequence[int], bool]:
    """The bytes of a log up to and with each admitted close, and whether the last one ends the auction."""
    found = replayed_log(award, log)
    return found.closes, found.is_over


class Day:
    """A day at the desk's log, by steps."""

    def __init__(self, folder: str, award: bytes, key: bytes, about: Mapping[str, str]) -> None:
        self.path, self.award, self.rules = pathlib.Path(folder, "day.log"), award, read_award(award)
        pathlib.Path(f"{self.path}.key").write_bytes(key)
        self.log = LogFile(self.path, {"award": sum_of(award), "program": sum_of(b"program")}, about=about)

    def replies(self, text: bytes) -> Callable[[bytes], list[str]]:
        """The replies to the last lines of a log."""
        return lambda log: [it.text() for it in replay(self.rules, read_log(log, self.rules)).replies][
            -text.count(b"\n") :
        ]

    def do(self, step: Step) -> None:
        """Does a step, and posts what is due."""
        data = self.log.read()
        base = self.log.base(data)
        if step.text:
            self.log.append(base, step.text, self.replies(step.text))
        elif step.is_reopened:
            self.log.cut(base, len(data) - len(CLOSE), step.why, stay=True)
        elif step.back is not None:
            closes, _ = closes_of(self.rules, data)
            self.log.cut(base, closes[step.back - 1] if step.back else 0, step.why)
        self.log.post(lambda log: closes_of(self.rules, log), step.is_publish)

    def files(self) -> Files:
        """The files as they are now."""
        log, desk, posted = (pathlib.Path(f"{self.path}{kind}").read_bytes() for kind in ("", ".desk", ".posted"))
        kept = {path.name: path.read_bytes() for path in sorted(self.path.parent.glob("day.log.cut-*"))}
        return Files(self.award, log, desk, posted, kept, self.log.key, True)


def told(steps: Iterable[Step], award: bytes = AWARD, key: bytes = KEY, about: Mapping[str, str] = PROGRAM) -> Files:
    """The files of a day with these steps: each step begins at its own minute."""
    clock, epochs = Clock(), (f"{it:016}" for it in itertools.count())
    with contextlib.ExitStack() as patches:
        for name, new in (
            ("journal.now", clock.now),
            ("logfile.now", clock.now),
            ("logfile.new_epoch", epochs.__next__),
        ):
            patches.enter_context(unittest.mock.patch(f"cca_tools.desk.{name}", new))
        day = Day(patches.enter_context(tempfile.TemporaryDirectory()), award, key, about)
        for step in steps:
            clock.time = START + datetime.timedelta(minutes=step.minute, seconds=step.late)
            day.do(step)
        made = day.files()
    return made


# What is changed.


def line_of_journal(files: Files, place: int, change: Callable[[Entry], Entry], torn: bytes = b"") -> Files:
    """The files with a change of an entry's fields, or a torn line before it; the chain is made again, and no seal."""
    lines: list[bytes] = []
    before: bytes | None = None
    for number, it in enumerate(chained(files.journal)):
        new = change(it) if number == place else it
        if torn and number == place:
            lines.append(torn)
            before = (before or b"") + b"\n" + torn
        before = dataclasses.replace(new, prev=line_sum(before)).line()
        lines.append(before)
    return files.but(journal=b"\n".join(lines) + b"\n")


def without_line(files: Files, *rows: int) -> Files:
    """The files without some lines of LOG.posted."""
    lines = files.posted.splitlines(True)
    return files.but(posted=b"".join(it for row, it in enumerate(lines, 1) if row not in rows))


def swapped(award: bytes) -> bytes:
    """An award with its first two bidders in the other order."""
    parts = re.split(rb"(?=\[\[bidder\]\])", award)
    return b"".join([parts[0], parts[2], parts[1], *parts[3:]])


def cheaper(award: bytes) -> bytes:
    """An award with another reserve."""
    return award.replace(b"reserve = 15000", b"reserve = 14900")


def shorter(files: Files, count: int) -> Files:
    """The files up to a number of posted lines: journal, log and posted lines end there."""
    entries = chained(files.journal)
    place = [at for at, it in enumerate(entries) if it.what == "posted"][count - 1]
    lines = files.journal.splitlines(True)[: place + 1]
    log = files.log[: entries[place].length]
    return files.but(journal=b"".join(lines), log=log, posted=b"".join(files.posted.splitlines(True)[: 3 + count]))


def with_draft(log: bytes) -> bytes:
    """A log with another amount in one draft of the sealed round."""
    return log.replace(b"draft,everest,1 0 3 0,420000", b"draft,everest,1 0 3 0,420001")


def with_bid(log: bytes) -> bytes:
    """A log with another bid in the first round."""
    return log.replace(b"2 0 4 0", b"1 0 4 0", 1)


def with_past_line(log: bytes) -> bytes:
    """A log with another bid in the fourth round."""
    return log.replace(b"bid,niche,0 0 5 0,", b"bid,niche,0 0 4 0,")


def with_time(steps: Sequence[Step], place: int, seconds: int) -> list[Step]:
    """The steps with another time of one."""
    return [dataclasses.replace(it, late=seconds) if at == place else it for at, it in enumerate(steps)]


# What is found.


@dataclasses.dataclass(frozen=True)
class Found:
    """What is found of changed files: the first line of what each tool says, and the numbers of the posted lines of the
    day (0 for the line of the award) that aren't of the changed files, as a witness of each one sees it."""

    check: str
    publish: str
    foreign: tuple[int, ...]


def write(folder: str, files: Files) -> dict[str, str]:
    """Writes files as they are published, with the certificate: the sample's, or a new one for other files if there is
    a program to make it. Returns their names."""
    names = {
        kind: str(pathlib.Path(folder, f"auction.{kind}")) for kind in ("award", "log", "key", "journal", "posted")
    }
    for kind, name in names.items():
        pathlib.Path(name).write_bytes(getattr(files, kind))
    for name, data in files.kept.items():
        pathlib.Path(folder, name).write_bytes(data)
    names["cert"] = str(pathlib.Path(folder, "auction.cert"))
    if files.is_made_again and PATH:
        subprocess.run([PATH, "award", names["award"], names["log"], names["cert"]], capture_output=True)
    else:
        pathlib.Path(names["cert"]).write_bytes(CERT)
    return names


def said(run: Callable[[list[str]], str], *words: str) -> str:
    """What a tool prints, without its `no` and without the path of a file: `yes`, or why not."""
    with contextlib.redirect_stderr(io.StringIO()), unittest.mock.patch.dict(os.environ, {"CCA_PROGRAM": "/nowhere"}):
        try:
            text = run(list(words))
        except Stop as stop:
            return stop.line.removeprefix("no\n") + (f": {stop.why}" if stop.why else "")
    return "yes" if text.startswith(("yes", "winner")) else text


def found(day: Files, files: Files) -> Found:
    """What the tools, and the witnesses of the day's lines, find of changed files."""
    with tempfile.TemporaryDirectory() as folder:
        names = write(folder, files)
        four = [names[kind] for kind in ("award", "log", "key", "posted")]
        check = said(journal, names["journal"], "--check", *four)
        more = ["--key", names["key"], "--posted", names["posted"], "--journal", names["journal"]]
        set_of = [names[kind] for kind in ("award", "log", "cert")]
        published = said(publish, *more, *set_of, str(pathlib.Path(folder, "set")))
        return Found(check, published, tuple(foreign(day, names, folder)) if check == "yes" else ())


def foreign(day: Files, names: Mapping[str, str], folder: str) -> Iterator[int]:
    """The numbers of the posted lines of the day that are NOT of these files; 0 is the line of the award."""
    for number, line in enumerate(day.posted.decode().splitlines()[2:]):
        note = pathlib.Path(folder, "noted")
        note.write_text(f"{line}\n")
        files = [names[kind] for kind in ("key", "award", "log")]
        if said(seal, "check", "--journal", names["journal"], *files, str(note)) != "yes":
            yield number


def foreign_of(day: Files, files: Files) -> tuple[int, ...]:
    """The numbers of the posted lines of a day that are NOT of some files, by a witness of each one."""
    with tempfile.TemporaryDirectory() as folder:
        return tuple(foreign(day, write(folder, files), folder))


def note_of(day: Files, text: str) -> str:
    """What is reported about a note, by the files of the day."""
    with tempfile.TemporaryDirectory() as folder:
        names = write(folder, day)
        note = pathlib.Path(folder, "noted")
        note.write_text(text)
        files = [names[kind] for kind in ("key", "award", "log")]
        with unittest.mock.patch.dict(os.environ, {"CCA_PROGRAM": "/nowhere"}):
            try:
                return str(seal(["check", "--journal", names["journal"], *files, str(note)]))
            except Stop as stop:
                return stop.line + (f"\n{stop.why}" if stop.why else "")


@dataclasses.dataclass(frozen=True)
class Attack:
    """An attack of the auctioneer: what it makes of the day's files, and what is expected: a part of what
    `tools/journal --check` and `tools/publish` say, and which lines a witness finds not to be of the files."""

    name: str
    make: Callable[[Files], Files]
    check: str
    publish: str
    foreign: tuple[int, ...] = ()

    def differs(self, it: Found) -> list[tuple[str, str] | tuple[tuple[int, ...], tuple[int, ...]]]:
        """The pairs of expected and found outcomes that differ. Without the program, which has to make the certificate,
        the outcome for a set of a whole new day isn't compared."""
        wanted = [(self.check, it.check), (self.publish, it.publish)][: 1 if self.publish == "yes" and not PATH else 2]
        return [pair for pair in wanted if not re.search(re.escape(pair[0]), pair[1])] + [
            pair for pair in [(self.foreign, it.foreign)] if pair[0] != pair[1]
        ]


def outcome(it: Found) -> str:
    """A description of who finds an attack, by what was found."""
    words = []
    if it.check != "yes":
        words.append("tools/journal --check refuses")
    if it.publish != "yes":
        words.append("tools/publish refuses")
    if it.foreign:
        names = ["award" if number == 0 else str(number) for number in it.foreign]
        words.append(f"who noted {'line' if len(names) == 1 else 'any of the lines'} {', '.join(names)}")
    return "; ".join(words) or "NOT FOUND"


LINES = tuple(range(1, 11))
ANOTHER_AWARD = "The award isn't the one that the journal began with"
CHANGED = "The journal was changed by hand"
ATTACKS = (
    # an editor in one file
    Attack("bidders swapped in the award, to turn a tie", lambda d: d.but(award=swapped(AWARD)), ANOTHER_AWARD, "no C"),
    Attack("a reserve of 14,900 instead of 15,000", lambda d: d.but(award=cheaper(AWARD)), ANOTHER_AWARD, "no C"),
    Attack("a draft changed in the log", lambda d: d.but(log=with_draft(d.log)), "leads to another log", "no C"),
    Attack(
        "a bid changed in log and journal",
        lambda d: d.but(log=with_bid(d.log), journal=with_bid(d.journal)),
        CHANGED,
        "no C",
    ),
    Attack(
        "the time of an entry", lambda d: d.but(journal=d.journal.replace(b"T09:03", b"T09:02", 1)), CHANGED, CHANGED
    ),
    Attack(
        "the time of an entry, its chain made again",
        lambda d: line_of_journal(d, 3, lambda it: dataclasses.replace(it, at=it.at.replace("T09:02:01", "T09:01:09"))),
        "has a seal that isn't made of",
        "has a seal that isn't made of",
    ),
    Attack(
        "a clock that was set back, its chain made again",
        lambda d: line_of_journal(d, 3, lambda it: dataclasses.replace(it, at=it.at.replace("T09:02", "T08:02"))),
        "doesn't say so",
        "doesn't say so",
    ),
    Attack(
        "a torn line put in, its chain made again",
        lambda d: line_of_journal(d, 3, lambda it: it, torn=b'{"prev (torn)'),
        "has a seal that isn't made of",
        "has a seal that isn't made of",
    ),
    Attack(
        "another reply, its chain made again",
        lambda d: line_of_journal(d, 1, lambda it: dataclasses.replace(it, more={**it.more, "replies": ["ok", "ok"]})),
        "has other replies",
        "has other replies",
    ),
    Attack("a void line left out", lambda d: without_line(d, 4), "aren't those of the journal", "refused posted 4"),
    Attack(
        "the last posted line left out",
        lambda d: without_line(d, 13),
        "aren't those of the journal",
        "aren't those of the journal",
    ),
    Attack(
        "a reason changed",
        lambda d: d.but(posted=d.posted.replace(b"too early", b"too late")),
        "aren't those of the journal",
        "aren't those of the journal",
    ),
    Attack("a kept log left out", lambda d: d.but(kept={}), "day.log.cut-1 isn't there", "day.log.cut-1 isn't there"),
    Attack(
        "a kept log changed",
        lambda d: d.but(kept={name: data + WRONG for name, data in d.kept.items()}),
        "isn't what the journal says was kept",
        "isn't what the journal says was kept",
    ),
    Attack(
        "a line added to the journal's end",
        lambda d: d.but(journal=d.journal + b'{"note": "all right"}\n'),
        CHANGED,
        CHANGED,
    ),
    Attack(
        "another key", lambda d: d.but(key=KEY.replace(b"0", b"1")), "The key isn't the one", "The key isn't the one"
    ),
    Attack("the last entries removed, from `publish` on", lambda d: shorter(d, 9), "yes", "doesn't end with", (10,)),
    # the whole day made again, with the key and at the same times, and a new certificate
    Attack("made again: bidders swapped", lambda d: told(honest(), swapped(AWARD)), "yes", "yes", (0, *LINES)),
    Attack("made again: a reserve of 14,900", lambda d: told(honest(), cheaper(AWARD)), "yes", "yes", (0, *LINES)),
    Attack("made again: a bid of round 1", lambda d: told(honest(with_bid(LOG))), "yes", "yes", LINES),
    Attack(
        "made again: a bid of round 4, its close sealed again",
        lambda d: told(honest(with_past_line(LOG))),
        "yes",
        "yes",
        (8, 9, 10),
    ),
    Attack("made again: a draft", lambda d: told(honest(with_draft(LOG))), "yes", "yes", (9, 10)),
    Attack("made again: the cut dropped", lambda d: told([*honest()[:3], *honest()[5:]]), "yes", "yes", LINES[3:]),
    Attack(
        "made again: the close that was taken back dropped",
        lambda d: told([Step(rounds(LOG)[0], minute=3), *honest()[3:]]),
        "yes",
        "yes",
        LINES,
    ),
    Attack(
        "made again: another reason",
        lambda d: told([honest()[0], Step(why="asked for", minute=2), *honest()[2:]]),
        "yes",
        "yes",
        LINES[1:],
    ),
    Attack(
        "made again: the time at which lines came", lambda d: told(with_time(honest(), 3, -40)), "yes", "yes", LINES[3:]
    ),
    Attack("made again: the late line dropped", lambda d: told([*honest()[:-2], honest()[-1]]), "yes", "yes", (10,)),
    Attack(
        "made again: another program told",
        lambda d: told(honest(), about={**PROGRAM, "program": "proved"}),
        "yes",
        "yes",
        LINES,
    ),
)
