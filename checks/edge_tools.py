"""Runs of the tools with drawn faults of the system: their arguments and files, and what must be true of each run.

Each run draws a tool with its files, some faulty or missing, and a fault: system calls that fail once, forever or in
pairs, that a signal interrupts, or that do a part of what they are asked for; a signal at a call or at a moment; a
limit of file size, address space or open files; a full disk; an output or an error stream that is full, closed or
without a reader; a TMPDIR that is full, missing or forbids programs. Then all of this must be true:

- the status is that of the run without a fault, or 4, 5, 6 or 70 with a sentence that says why, or that of a signal;
  it is 1 only if a line `no ..` is printed
- no word of Python is printed: no traceback, and after Ctrl-C nothing
- no file of the user changes; a new file is whole or not there, and one that grows has its old bytes and then a prefix
  of what the run without a fault adds; nothing else is left, except by a run that is killed
- a status of 0 means the same output and the same files as without the fault
- a second run, without a fault, ends as if the first had not been, unless that made the file
"""

from __future__ import annotations

import pathlib
import random
import re
import resource
import subprocess
import tempfile
from collections.abc import Mapping, Sequence
from typing import NamedTuple

from checks import traced
from checks.cases import attacks
from checks.traced import FOR_EVER, Fault

ROOT = pathlib.Path(__file__).resolve().parents[1]
EXAMPLES = ROOT / "examples"
# What takes part in a study that is small enough.
PLAN = """plan = 1
award = "small.award"
values = "small.values"
auctions = 2
seed = 1
"""
TABLE = b"bidder,c1,c2,amount\nNorth,1,0,12\nEast,0,1,9.5\nNorth,1,1,20\n"


class Use(NamedTuple):
    """A use of a tool: its name, its arguments, and the names of what it makes or appends to.

    `makes` is a file or a folder that appears whole or not at all, `fills` a folder that grows file by file, and
    `grows` a file that is appended to. What is drawn, as a key is, has only its length in common with another run.
    """

    tool: str
    words: tuple[str, ...]
    makes: str = ""
    fills: str = ""
    grows: str = ""
    is_drawn: bool = False

    @property
    def path(self) -> str:
        """The script."""
        return str(ROOT / "tools" / self.tool)

    @property
    def new(self) -> str:
        """What it makes, fills or appends to, or nothing."""
        return self.makes or self.fills or self.grows

    def is_own(self, name: str) -> bool:
        """Whether it may make a file of this path. The desk has several files of a log."""
        top = name.split("/")[0]
        return bool(self.new) and (top == self.new or self.tool == "desk" and top.startswith(f"{self.new}."))

    def shown(self) -> str:
        """The use as a command line."""
        return f"tools/{self.tool} {' '.join(self.words)}"


def use(line: str, makes: str = "", fills: str = "", grows: str = "", is_drawn: bool = False) -> Use:
    """The use with this command line, in which `~` is a space within an argument."""
    tool, *words = line.split(" ")
    return Use(tool, tuple(word.replace("~", " ") for word in words), makes, fills, grows, is_drawn)


DAY = "auction.award auction.log"
USES = (
    use("audit a.award a.log a.cert"),
    use("audit a.award a.log worse.cert"),
    use("audit a.award a.log wrong.cert"),
    use("check day.book day.cert"),
    use("check day.book wrong.cert"),
    use("check day.book missing"),
    use("check-places band.slots band.cert"),
    use("explain audit a.award a.log a.cert"),
    use("explain check day.book wrong.cert"),
    use("explain auction a.award faulty.log"),
    use("state a.award a.log"),
    use("state a.award faulty.log"),
    use("seal new new.key a.award", makes="new.key", is_drawn=True),
    use(f"seal sum auction.key {DAY} new.posted", grows="new.posted", is_drawn=True),
    use(f"seal check --journal auction.journal auction.key {DAY} auction.posted"),
    use(f"seal check --posted auction.posted auction.key {DAY} wrong.cert"),
    use("journal auction.journal"),
    use(f"journal auction.journal --check {DAY} auction.key auction.posted"),
    use("journal auction.journal --check auction.award a.log auction.key auction.posted"),
    use("caps a.award a.log tarn"),
    use("what-if a.award a.log other.log"),
    use("what-if a.award a.log --least tarn 2~0~0~0"),
    use("why a.award a.log a.cert"),
    use("why a.award a.log worse.cert"),
    use("why day.book wrong.cert"),
    use("report a.award a.log"),
    use("report a.award a.log a.cert --text"),
    use("report day.book wrong.cert"),
    use("publish a.award a.log a.cert set", makes="set"),
    use("publish a.award a.log worse.cert set", makes="set"),
    use("publish a.award a.log wrong.cert set", makes="set"),
    use("price day.book new.cert", makes="new.cert"),
    use("price a.award a.log new.cert", makes="new.cert"),
    use("book table.csv --supply 1~1"),
    use("book missing"),
    use("prices day.book tie.book"),
    use("rehearse small.award small.values new.log", grows="new.log"),
    use("study small.plan --processes 1", fills="small"),
    use("desk a.award desk.log", grows="desk.log", is_drawn=True),
)
ERRORS = {
    "openat": "EACCES EMFILE ENFILE ENOMEM EIO ENOSPC EROFS".split(),
    "newfstatat": ["EACCES", "ENOMEM", "EIO"],
    "fstat": ["EIO", "ENOMEM"],
    "read": ["EIO"],
    "pread64": ["EIO"],
    "write": ["EIO", "ENOSPC", "EDQUOT", "EFBIG"],
    "pwrite64": ["EIO", "ENOSPC"],
    "close": ["EIO", "ENOSPC", "EDQUOT"],
    "lseek": ["ESPIPE", "EINVAL"],
    "fcntl": ["EMFILE", "ENOLCK"],
    "flock": ["ENOLCK", "EAGAIN"],
    "fsync": ["EIO", "ENOSPC"],
    "ftruncate": ["EIO"],
    "rename": ["ENOSPC", "EIO", "EROFS", "EDQUOT"],
    "mkdir": ["ENOSPC", "EROFS", "EACCES", "EDQUOT"],
    "rmdir": ["EIO", "EROFS"],
    "link": ["ENOSPC", "EIO", "EPERM"],
    "linkat": ["ENOSPC", "EIO", "EPERM"],
    "unlink": ["EIO", "EROFS"],
    "unlinkat": ["EIO", "EROFS"],
    "getdents64": ["EIO", "ENOMEM"],
    "mmap": ["ENOMEM"],
    "mremap": ["ENOMEM"],
    "brk": ["0"],
    "munmap": ["ENOMEM"],
    "fork": ["EAGAIN", "ENOMEM"],
    "vfork": ["EAGAIN", "ENOMEM"],
    "socket": ["EMFILE", "EACCES", "ENOMEM"],
    "getrandom": ["ENOSYS"],
    "readlink": ["EIO", "EACCES"],
}
# Calls that Python makes again where a signal interrupts them.
AGAIN = ("openat", "read", "pread64", "write", "pwrite64", "fsync", "flock", "ftruncate")
REMOVING = "fcntl unlink unlinkat rmdir openat getdents64 newfstatat fstat close mmap brk".split()
SIGNALS = "SIGINT SIGINT SIGINT SIGTERM SIGHUP SIGKILL SIGPIPE SIGXFSZ SIGUSR1".split()
LIMITS = {
    "file size": resource.RLIMIT_FSIZE,
    "address space": resource.RLIMIT_AS,
    "open files": resource.RLIMIT_NOFILE,
}
TEMPORARY = ("TMPDIR full", "TMPDIR missing", "TMPDIR without exec")
STREAMS = ("full output", "closed output", "no reader", "full errors", "closed errors", "all streams full")
AT_A_MOMENT = ("Ctrl-C", "SIGTERM", "Ctrl-C early")
KINDS = {
    "no fault": 2,
    "a call fails once": 22,
    "a call fails for ever": 10,
    "two faults": 8,
    "interrupted": 5,
    "short reads": 3,
    "short writes": 6,
    "signal": 8,
    "file size": 7,
    "address space": 5,
    "open files": 4,
    "full disk": 6,
    **dict.fromkeys(TEMPORARY, 3),
    **dict.fromkeys(STREAMS, 2),
    "Ctrl-C": 24,
    "Ctrl-C early": 6,
    "SIGTERM": 6,
}


class Setting(NamedTuple):
    """What a run meets: faults of calls, a limit, or a moment in seconds at which a signal comes."""

    kind: str = "no fault"
    faults: tuple[Fault, ...] = ()
    limit: int = -1
    moment: float = 0.0

    def shown(self) -> str:
        """The setting in words."""
        told = [traced.shown(self.faults)] if self.faults else []
        told += [f"limit {self.limit}"] if self.limit >= 0 else []
        told += [f"after {self.moment:.3f} s"] if self.moment else []
        return ", ".join([self.kind, *told])


def right_files(program: str) -> dict[str, bytes]:
    """The files that the uses name."""
    found = {
        "a.award": (EXAMPLES / "spectrum.award").read_bytes(),
        "a.log": (EXAMPLES / "spectrum.log").read_bytes(),
        "a.cert": (EXAMPLES / "spectrum.cert").read_bytes(),
        "day.book": (EXAMPLES / "day-cramton.book").read_bytes(),
        "day.cert": (EXAMPLES / "day-cramton.cert").read_bytes(),
        "tie.book": (EXAMPLES / "tie.book").read_bytes(),
        "band.slots": (EXAMPLES / "band.slots").read_bytes(),
        "small.award": (EXAMPLES / "final-cap.award").read_bytes(),
        "small.values": (EXAMPLES / "final-cap.values").read_bytes(),
        "small.plan": PLAN.encode(),
        "table.csv": TABLE,
    }
    found["wrong.cert"] = re.sub(rb"(?m)^pay .*$", b"pay 16 16 0 0 0", found["day.cert"])
    found["worse.cert"] = found["a.cert"].replace(b"pay 47400 30000", b"pay 47401 29999")
    lines = found["a.log"].splitlines(keepends=True)
    found["other.log"] = b"".join(lines[:3] + lines[4:])
    found["faulty.log"] = b"".join([*lines[:3], b"bid;tarn;1\n", *lines[3:]])
    with tempfile.TemporaryDirectory() as name:
        folder = pathlib.Path(name)
        (folder / "slots").write_bytes(found["band.slots"])
        subprocess.run([program, "place", "slots", "cert"], cwd=folder, check=True, capture_output=True)
        found["band.cert"] = (folder / "cert").read_bytes()
        (folder / "day").mkdir()
        attacks.write(str(folder / "day"), attacks.told(attacks.honest()))
        found.update({path.name: path.read_bytes() for path in (folder / "day").iterdir()})
    return found


# Drawing.


def place(rng: random.Random, counts: Mapping[str, int], names: Sequence[str]) -> tuple[str, int]:
    """A call by its name and its number, one of the last ones as often as all others."""
    name = rng.choice([it for it in names if it in counts])
    return name, rng.randint(1 if rng.random() < 0.5 else counts[name] * 9 // 10 + 1, counts[name])


def failing(rng: random.Random, counts: Mapping[str, int], is_for_ever: bool) -> Fault:
    """A call that fails, and perhaps all later ones of its name."""
    name, number = place(rng, counts, list(ERRORS))
    return Fault(name, number, FOR_EVER if is_for_ever else number, rng.choice(ERRORS[name]))


def interrupted(rng: random.Random, counts: Mapping[str, int]) -> Fault:
    """A call that a signal interrupts once or a few times."""
    name, number = place(rng, counts, AGAIN)
    return Fault(name, number, number + rng.choice([0, 1, 20]), "EINTR")


def short(rng: random.Random, counts: Mapping[str, int], name: str) -> Fault:
    """Calls that do a part of what they are asked for."""
    _, number = place(rng, counts, [name])
    return Fault(name, number, number + rng.choice([0, 1, 30, FOR_EVER - number]), f"short {rng.choice([1, 7, 100])}")


def met_by_signal(rng: random.Random, counts: Mapping[str, int]) -> Fault:
    """A signal at a call."""
    name, number = place(rng, {**counts, "exit_group": 1}, [*ERRORS, "exit_group"])
    return Fault(name, number, number, rng.choice(SIGNALS))


def limit_of(rng: random.Random, kind: str, sizes: Sequence[int]) -> int:
    """A limit that a run may meet, which makes files of these sizes."""
    if kind == "file size":
        return rng.choice([0, 1, 512, 4096, 4096, 8192, rng.randint(0, max(sizes)), max(0, rng.choice(sizes) - 1)])
    if kind == "open files":
        return rng.randint(4, 14)
    if kind == "full disk":
        return rng.choice([0, 0, 1, 2, rng.randint(0, 90)])
    return 2**20 * rng.randint(12, 120)


def setting_of(
    rng: random.Random, kind: str, counts: Mapping[str, int], sizes: Sequence[int], seconds: float
) -> Setting:
    """A setting of this kind for a run that makes so many calls without a fault, files of these sizes, and takes so
    long."""
    faults: tuple[Fault, ...] = ()
    if kind.startswith("a call fails"):
        faults = (failing(rng, counts, kind.endswith("for ever")),)
    elif kind == "two faults":
        some = [failing(rng, counts, rng.random() < 0.4) for _ in range(3)]
        faults = tuple(rng.sample([*some, met_by_signal(rng, counts), short(rng, counts, "write")], 2))
    elif kind == "interrupted":
        faults = (interrupted(rng, counts),)
    elif kind.startswith("short"):
        faults = (short(rng, counts, "read" if "reads" in kind else "write"),)
    elif kind == "signal":
        faults = (met_by_signal(rng, counts),)
    elif kind in AT_A_MOMENT:
        return Setting(kind, moment=rng.uniform(0, 0.15 if "early" in kind else 1.1 * seconds))
    elif kind in (*LIMITS, "full disk"):
        return Setting(kind, limit=limit_of(rng, kind, sizes))
    elif kind == "TMPDIR full":
        return Setting(kind, limit=rng.randint(0, 3))
    return Setting(kind, faults)
