"""Makes the runs of `edge_tools`, and judges them."""

from __future__ import annotations

import collections
import contextlib
import fcntl
import http.client
import os
import pathlib
import random
import re
import shutil
import signal
import subprocess
import threading
import time
import urllib.request
from collections.abc import Iterator, Mapping, Sequence
from typing import NamedTuple

from checks import traced
from checks.edge_tools import (
    AT_A_MOMENT,
    ERRORS,
    KINDS,
    LIMITS,
    REMOVING,
    STREAMS,
    TEMPORARY,
    USES,
    Setting,
    Use,
    setting_of,
)
from checks.mounts import NO_EXEC, leave_the_others, mount_memory
from checks.traced import Start, Traced, Tracer

PYTHON = "/usr/bin/python3"
COURT = ("audit", "check", "check-places")
DISK, TEMPORARY_DISK = 4 * 2**20, 65_536
# The statuses of a run that didn't get what it needs. They come with a sentence.
WITHOUT = {4, 5, 6, 70}
INTERRUPTED = 130
# What Python says of its own faults.
OF_PYTHON = re.compile(rb"Traceback|Exception ignored|Fatal Python|^  File \"", re.MULTILINE)
NO = re.compile(rb"^no\b", re.MULTILINE)
# A report says it in its page, and on standard error.
NO_OF_REPORT = re.compile(rb"no C[0-9]")
NONE = Traced(0, [], {}, True, False)
# What a desk prints last before it serves pages.
ADDRESS = re.compile(rb"^room  (http://\S+)/posted$", re.MULTILINE)


class Ended(NamedTuple):
    """How a run ended: its status, what it printed, its errors, the files, what is left in TMPDIR, its calls and its
    seconds."""

    status: int
    printed: bytes
    errors: bytes
    files: dict[str, bytes]
    scratch: list[str]
    traced: Traced
    seconds: float

    @property
    def said(self) -> bytes:
        """All that it said."""
        return self.printed + self.errors


def visit(printed: pathlib.Path, tracer: int, has_ended: threading.Event) -> None:
    """Looks at the pages of a desk once it prints its address, and then ends it by Ctrl-C."""
    # (an output that isn't seen has no address)
    late = time.monotonic() + (30 if printed.exists() else 5)
    while time.monotonic() < late and not has_ended.wait(0.05):
        found = ADDRESS.search(printed.read_bytes()) if printed.exists() else None
        if found:
            for page in ("/", "/posted"):
                with contextlib.suppress(OSError, http.client.HTTPException):
                    urllib.request.urlopen(found[1].decode() + page, timeout=5).read()
            break
    while not has_ended.is_set():
        for process in pathlib.Path(f"/proc/{tracer}/task/{tracer}/children").read_text().split():
            with contextlib.suppress(ProcessLookupError):
                os.kill(int(process), signal.SIGINT)
        # (a second one, as Python ends, would end it without a status)
        has_ended.wait(10)


class Room:
    """Where a process makes its runs: a folder on the disk, one on a disk that can be full, and folders of TMPDIR."""

    def __init__(self, folder: pathlib.Path, tracer: str, files: Mapping[str, bytes], seconds: float) -> None:
        self.path, self.files, self.seconds = folder, files, seconds
        self.disk, self.small, self.scratch = folder / "disk", folder / "small", folder / "scratch"
        self.temporary = {kind: folder / kind.replace(" ", "-") for kind in TEMPORARY}
        for path in (self.disk, self.small, self.scratch, *self.temporary.values()):
            path.mkdir()
        self.temporary["TMPDIR missing"].rmdir()
        self.can_mount = (
            leave_the_others()
            and mount_memory(self.small, DISK)
            and mount_memory(self.temporary["TMPDIR full"], TEMPORARY_DISK)
            and mount_memory(self.temporary["TMPDIR without exec"], DISK, NO_EXEC)
        )
        self.tracers = {kind: Tracer(tracer, self.variables(kind)) for kind in ("", *TEMPORARY)}
        self.known: dict[Use, Ended] = {}

    def variables(self, kind: str) -> dict[str, str]:
        """The environment of the runs of a kind."""
        return {**os.environ, "TMPDIR": str(self.temporary.get(kind, self.scratch))}

    def scene(self, kind: str) -> pathlib.Path:
        """The folder of the runs of a kind."""
        return self.small / "scene" if kind == "full disk" else self.disk

    def fill(self, kind: str) -> None:
        """Puts the files into the folder of a run of this kind, and empties that of temporary files."""
        folder = self.scene(kind)
        for path in (folder, self.scratch):
            shutil.rmtree(path, ignore_errors=True)
            path.mkdir(exist_ok=True)
        for name, data in self.files.items():
            (folder / name).write_bytes(data)

    def leave(self, setting: Setting) -> None:
        """Leaves so many pages of the disk that is to be full."""
        folder = {"full disk": self.small, "TMPDIR full": self.temporary["TMPDIR full"]}.get(setting.kind)
        if folder is None:
            return
        ballast = folder / "ballast"
        with ballast.open("wb", buffering=0) as file, contextlib.suppress(OSError):
            while file.write(bytes(4096)):
                pass
        os.truncate(ballast, max(0, ballast.stat().st_size // 4096 - setting.limit) * 4096)

    def clear(self) -> None:
        """Gives the full disks their room again."""
        for folder in (self.small, self.temporary["TMPDIR full"]):
            (folder / "ballast").unlink(missing_ok=True)


def left(folder: pathlib.Path) -> dict[str, bytes]:
    """The files of a folder, by their paths in it."""
    paths = sorted(path for path in folder.rglob("*") if path.is_file())
    return {str(path.relative_to(folder)): path.read_bytes() for path in paths}


@contextlib.contextmanager
def output_of(room: Room, kind: str) -> Iterator[int]:
    """What a run of this kind prints to."""
    if kind == "no reader":
        reading, out = os.pipe()
        os.close(reading)
    elif kind in ("full output", "all streams full"):
        out = os.open("/dev/full", os.O_WRONLY)
    else:
        out = os.open(room.path / "printed", os.O_WRONLY | os.O_CREAT | os.O_TRUNC, 0o600)
    yield out
    os.close(out)


@contextlib.contextmanager
def visited(room: Room, tracer: Tracer) -> Iterator[None]:
    """A block in which a desk that the tracer runs has a visitor."""
    has_ended = threading.Event()
    visitor = threading.Thread(target=visit, args=(room.path / "printed", tracer.process.pid, has_ended))
    visitor.start()
    yield
    has_ended.set()
    visitor.join()


@contextlib.contextmanager
def errors_of(room: Room, kind: str) -> Iterator[int]:
    """What a run of this kind says errors to: a file that no limit of file size reaches, or a device that is full."""
    if kind in ("full errors", "all streams full"):
        out = os.open("/dev/full", os.O_WRONLY)
        yield out
        os.close(out)
        return
    reading, out = os.pipe()
    fcntl.fcntl(out, fcntl.F_SETPIPE_SZ, 2**20)
    os.set_blocking(reading, False)
    yield out
    os.close(out)
    with open(reading, "rb") as pipe:
        (room.path / "errors").write_bytes(pipe.read() or b"")


def words_of(use: Use) -> list[str]:
    """The command line by which Python runs a tool. Ctrl-C waits until it has started, as with the script's first
    line."""
    return ["/usr/bin/env", "--block-signal=INT", PYTHON, "-I" if use.tool in COURT else "-E", use.path, *use.words]


def ended(room: Room, use: Use, setting: Setting, names: Sequence[str] = ()) -> Ended:
    """Runs a use of a tool in its folder as it is."""
    for name in ("printed", "errors"):
        (room.path / name).unlink(missing_ok=True)
    folder, kind, began = room.scene(setting.kind), setting.kind, time.monotonic()
    with contextlib.ExitStack() as block:
        nothing = block.enter_context(open(os.devnull, "rb"))
        out, errors = block.enter_context(output_of(room, kind)), block.enter_context(errors_of(room, kind))
        if use.tool == "desk":
            block.enter_context(visited(room, room.tracers[kind if kind in TEMPORARY else ""]))
        streams = nothing.fileno(), out, errors
        if kind in AT_A_MOMENT:
            told = signalled(room, use, setting, streams)
        else:
            tracer = room.tracers[kind if kind in TEMPORARY else ""]
            told = tracer.run(start_of(use, setting, folder, streams), room.seconds, setting.faults, names)
    seconds = time.monotonic() - began
    printed, said = (
        path.read_bytes() if path.exists() else b"" for path in (room.path / "printed", room.path / "errors")
    )
    scratch = sorted(path.name for path in room.scratch.iterdir())
    return Ended(told.status, printed, said, left(folder), scratch, told, seconds)


def start_of(use: Use, setting: Setting, folder: pathlib.Path, streams: tuple[int, int, int]) -> Start:
    """How a use of a tool starts in a setting. Its calls count from the one that opens its script."""
    has_limit = setting.kind in LIMITS
    return Start(
        words_of(use),
        str(folder),
        streams,
        limit=(LIMITS[setting.kind], setting.limit) if has_limit else (-1, 0),
        is_closed=setting.kind == "closed output",
        has_no_errors=setting.kind == "closed errors",
        begin=("openat", use.path),
    )


def take_interrupts() -> None:
    """Lets a process be ended by Ctrl-C, also if this one ignores that."""
    signal.signal(signal.SIGINT, signal.SIG_DFL)


def signalled(room: Room, use: Use, setting: Setting, streams: tuple[int, int, int]) -> Traced:
    """Runs the script as a shell does, and sends its group a signal at the moment."""
    nothing, out, errors = streams
    process = subprocess.Popen(
        [use.path, *use.words],
        cwd=room.scene(setting.kind),
        env=room.variables(""),
        stdin=nothing,
        stdout=out,
        stderr=errors,
        start_new_session=True,
        preexec_fn=take_interrupts,
    )
    time.sleep(setting.moment)
    with contextlib.suppress(ProcessLookupError):
        os.killpg(process.pid, signal.SIGTERM if setting.kind == "SIGTERM" else signal.SIGINT)
    with contextlib.suppress(subprocess.TimeoutExpired):
        return NONE._replace(status=process.wait(room.seconds))
    os.killpg(process.pid, signal.SIGKILL)
    return NONE._replace(status=process.wait(), is_late=True)


# Judging.


def signals_met(setting: Setting, end: Ended) -> set[int]:
    """The statuses of the signals that came. Python ignores SIGPIPE and SIGXFSZ."""
    met = {call.how for call in end.traced.calls if traced.is_signal(call.how)} - {"SIGPIPE", "SIGXFSZ"}
    met |= {"SIGTERM"} if setting.kind == "SIGTERM" else {"SIGINT"} if setting.kind in AT_A_MOMENT else set()
    found = {-signal.Signals[name] for name in met if name != "SIGINT"}
    # (before Python blocks it, Ctrl-C ends the shell of the first line)
    return found | ({INTERRUPTED, -signal.SIGINT} if "SIGINT" in met else set())


def statuses(use: Use, setting: Setting, whole: Ended, end: Ended) -> set[int]:
    """The statuses with which a run may end."""
    kind, is_answer = setting.kind, whole.status in (0, 1)
    if use.tool == "desk":
        # (Ctrl-C may come before it serves pages)
        return {0, -signal.SIGINT, INTERRUPTED} | signals_met(setting, end) | WITHOUT
    if met := signals_met(setting, end):
        return met | {whole.status} | (WITHOUT if len(setting.faults) > 1 else set())
    if kind in ("full output", "closed output", "no reader", "all streams full"):
        return {5} if is_answer else {5, whole.status}
    if kind in ("no fault", "full errors", "closed errors", "TMPDIR without exec"):
        return {whole.status}
    if kind.startswith("TMPDIR"):
        return {whole.status, 70}
    if kind == "interrupted" or kind.startswith("short"):
        # (Python opens a folder once)
        can_fail = use.new and kind == "short writes" or any(it.call == "openat" for it in setting.faults)
        return {whole.status} | (WITHOUT if can_fail else set())
    return {whole.status} | WITHOUT


def is_killed(end: Ended) -> bool:
    """Whether a run couldn't clear away what it had made."""
    return end.status < 0 and end.status != -signal.SIGINT


def wrong_words(use: Use, setting: Setting, whole: Ended, end: Ended) -> Iterator[str]:
    """What is said and shouldn't be, or the other way round."""
    if OF_PYTHON.search(end.said):
        yield f"words of Python: {end.said[-300:]!r}"
    is_seen = setting.kind not in STREAMS
    if end.status == 1 and not (NO_OF_REPORT if use.tool == "report" else NO).search(end.printed):
        yield "status 1 without a line `no ..`"
    # (the files for courts print what cca prints, which is nothing where the output can't be written)
    is_heard = not any(call.how and call.name == "write" and call.file == 2 for call in end.traced.calls)
    has_to_say = is_seen and is_heard and end.status in WITHOUT - ({5} if use.tool in COURT else set())
    if has_to_say and end.status != whole.status and not end.said.strip():
        yield f"status {end.status} without a word"
    # (what lacks the program says so, and goes on without it)
    is_same = use.is_drawn or use.tool in ("report", "what-if") or end.printed == whole.printed
    if end.status == 0 and is_seen and not is_same:
        yield f"status 0, and another output: {end.printed[-200:]!r}"
    if end.status == INTERRUPTED and setting.kind in AT_A_MOMENT and use.tool != "study":
        if end.errors and not whole.errors.startswith(end.errors):
            yield f"words after Ctrl-C: {end.errors[-200:]!r}"


def is_same(use: Use, one: bytes, other: bytes) -> bool:
    """Whether two texts of a new file are the same, as far as two runs make the same."""
    return len(one) == len(other) if use.is_drawn else one == other


def wrong_files(use: Use, setting: Setting, whole: Ended, end: Ended, before: Mapping[str, bytes]) -> Iterator[str]:
    """What files hold and shouldn't hold."""
    for name, data in before.items():
        if name != use.grows and end.files.get(name) != data:
            yield f"{name} has changed"
    made = {name: data for name, data in end.files.items() if name not in before}
    top = {name: data for name, data in made.items() if use.is_own(name)}
    is_lacking = setting.kind in ("open files", "address space")
    is_kept = any(call.how and call.name in REMOVING for call in end.traced.calls)
    can_leave = is_killed(end) or is_lacking or is_kept
    others = sorted(made.keys() - top.keys())
    if others and not can_leave:
        yield f"left: {others}"
    if end.scratch and not can_leave:
        yield f"left in TMPDIR: {end.scratch}"
    should = {name: data for name, data in whole.files.items() if name not in before}
    if end.status == 0 and use.tool != "desk" and top.keys() != should.keys():
        yield f"status 0, and not all files: {sorted(should.keys() - top.keys())}"
    for name, data in top.items():
        right = should.get(name, b"")
        if use.tool == "desk" or use.grows and end.status != 0:
            if not use.is_drawn and not right.startswith(data):
                yield f"{name} has no prefix of its text"
        elif not is_same(use, data, right) and not is_row_file(use, name):
            yield f"{name} isn't whole: {len(data)} bytes of {len(right)}"
    if use.makes and top and top.keys() != should.keys():
        yield f"{use.makes} isn't whole: it has {sorted(top)}"


def is_row_file(use: Use, name: str) -> bool:
    """Whether a file is that of a study's rows, which grows, or its lock."""
    return bool(use.fills) and pathlib.PurePath(name).name in ("rows.jsonl", ".lock")


def deviations(use: Use, setting: Setting, whole: Ended, end: Ended, before: Mapping[str, bytes]) -> Iterator[str]:
    """What isn't as promised of a run."""
    if end.traced.is_late:
        yield "it doesn't end"
        return
    # (Python itself didn't start)
    has_begun = end.traced.has_begun or setting.kind not in LIMITS
    if has_begun and end.status not in (expected := statuses(use, setting, whole, end)):
        yield f"status {end.status}, and not one of {sorted(expected)}"
    if has_begun:
        yield from wrong_words(use, setting, whole, end)
    yield from wrong_files(use, setting, whole, end, before)


def second_run(room: Room, use: Use, setting: Setting, whole: Ended, end: Ended) -> Iterator[str]:
    """What isn't as promised of a run without a fault after this one."""
    quiet = Setting("full disk" if setting.kind == "full disk" else "no fault")
    again = ended(room, use, quiet)
    is_there = any(map(use.is_own, end.files))
    if (use.makes and is_there) or (use.tool == "rehearse" and end.files.get(use.grows)):
        expected = {5}
    else:
        expected = {whole.status}
    if again.status not in expected:
        yield f"the second run ends with {again.status}: {again.said[-300:]!r}"
    if again.status == 0 and not use.grows and not use.is_drawn:
        made = {name for name in whole.files if use.is_own(name)}
        for name in sorted(made):
            if again.files.get(name) != whole.files[name] and not is_row_file(use, name):
                yield f"after the second run {name} isn't whole"


# Running.


class Result(NamedTuple):
    """A run: its kind, its status, its tool, and what isn't as promised."""

    kind: str
    status: int
    tool: str
    told: list[str]


def whole_of(room: Room, use: Use) -> Ended:
    """The run without a fault."""
    if use not in room.known:
        room.fill("no fault")
        # (a first run may write caches of the system's Python)
        room.known[use] = ended(room, use, Setting(), list(ERRORS))
    return room.known[use]


def made(room: Room, seed: int) -> Result:
    """Draws a run, makes it, and judges it."""
    rng = random.Random(f"edge of a tool {seed}")
    kind = rng.choices(list(KINDS), list(KINDS.values()))[0]
    if not room.can_mount and kind in ("full disk", "TMPDIR full", "TMPDIR without exec"):
        kind = "full output"
    use = rng.choice([it for it in USES if it.new or kind != "full disk"])
    whole = whole_of(room, use)
    sizes = [len(data) for name, data in whole.files.items() if name not in room.files] + [len(whole.printed)]
    setting = setting_of(rng, kind, whole.traced.counts, sizes, whole.seconds)
    room.clear()
    room.fill(kind)
    room.leave(setting)
    before = left(room.scene(kind))
    end = ended(room, use, setting)
    room.clear()
    told = list(deviations(use, setting, whole, end, before))
    if use.new and end.status != 0 and not told:
        told += second_run(room, use, setting, whole, end)
    if told:
        about = f"{use.shown()}; {setting.shown()}; status {whole.status} without it, {end.status} with it"
        told = [about, *told, f"said {end.said[-500:]!r}"]
    return Result(kind, end.status, use.tool, told)


def name_of(status: int) -> str:
    """A status, or the signal that ended a run."""
    return signal.Signals(-status).name if status < 0 else str(status)


def counted(results: Sequence[Result], heads: Sequence[str], of: str) -> Iterator[str]:
    """The counts of the runs by the field `of` and the status."""
    rows: dict[str, collections.Counter[str]] = collections.defaultdict(collections.Counter)
    for result in results:
        for row in (getattr(result, of), "all"):
            rows[row].update(["runs", name_of(result.status), *["deviations"] * bool(result.told)])
    names = {name for row in rows.values() for name in row} - {"runs", "deviations"}
    order = sorted(names, key=lambda it: (not it.isdigit(), int(it) if it.isdigit() else 0, it))
    columns = ["runs", *order, "deviations"]
    yield f"| {of} | {' | '.join(columns)} |"
    yield "|---" * (len(columns) + 1) + "|"
    for head in [*(it for it in heads if it in rows), "all"]:
        yield f"| {head} | {' | '.join(str(rows[head][column] or '-') for column in columns)} |"


def table(results: Sequence[Result]) -> str:
    """The counts of the runs by tool and status, and by kind and status."""
    tools = sorted({use.tool for use in USES})
    return "\n".join([*counted(results, tools, "tool"), "", *counted(results, [*KINDS, "not made"], "kind")])
