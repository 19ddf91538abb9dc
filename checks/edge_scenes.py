"""Scenes for runs with faults: a command, its arguments, and the files that they name, right ones and odd ones.

If the files decide how a scene has to end, the expected end is taken from docs/FORMATS.md.
"""

from __future__ import annotations

import fcntl
import os
import pathlib
import random
import shutil
import subprocess
import threading
from collections.abc import Mapping, Sequence
from typing import NamedTuple

from checks.cases import damage
from checks.cases import made_auction

EXAMPLES = pathlib.Path(__file__).resolve().parents[1] / "examples"
NOBODY = 65534
HELD = b"kept\n"
# Each command with the files that it reads and those that it appends to.
COMMANDS: dict[str, tuple[tuple[str, ...], tuple[str, ...]]] = {
    "award": (("award", "log"), ("cert",)),
    "audit": (("award", "log", "cert"), ()),
    "auction": (("award", "log"), ("book",)),
    "win": (("book",), ()),
    "price": (("book",), ("cert",)),
    "check": (("book", "cert"), ()),
    "weigh": (("book", "weights"), ("cert",)),
    "weigh-check": (("book", "weights", "cert"), ()),
    "make": ((), ("award", "log")),
    "place": (("slots",), ("cert",)),
    "place-check": (("slots", "cert"), ()),
    "review": (("book", "edits"), ()),
}
# The command that tests the certificate of another.
TESTED_BY = {"award": "audit", "price": "check", "weigh": "weigh-check", "place": "place-check"}
FLAGS = {"award": ("--rounds", "--json"), "price": ("--rounds", "--json"), "weigh": ("--rounds", "--json")}
LIMITS = {
    "award": 65_536,
    "log": 8_388_608,
    "book": 1_048_576,
    "weights": 65_536,
    "slots": 65_536,
    "edits": 1_048_576,
    "cert": 67_108_864,
}
# Kinds of a file that is read, how often each is drawn, and the line of a run that meets it.
UNREAD = "cca: read fault {role}"
INPUTS: dict[str, tuple[int, str | None]] = {
    "right": (60, ""),
    "mutated": (8, None),
    "empty": (4, "cca: refused {role} {first}"),
    "huge": (2, "cca: limit bytes {beyond}"),
    "missing": (4, UNREAD),
    "folder": (3, UNREAD),
    "loop of links": (2, UNREAD),
    "no permission": (3, UNREAD),
    "link": (5, ""),
    "hard link": (3, ""),
    "named pipe": (3, ""),
    "standard input": (3, ""),
}
# The same for a file that is appended to.
UNWRITTEN = "cca: write fault {role}"
OUTPUTS: dict[str, tuple[int, str | None]] = {
    "new": (40, ""),
    "held": (20, ""),
    "link": (6, ""),
    "link to nothing": (6, ""),
    "hard link": (5, ""),
    "in a folder": (6, ""),
    "held in a folder that can't be read": (2, ""),
    "in a folder that can't be read": (3, UNWRITTEN),
    "null device": (3, ""),
    "full device": (3, UNWRITTEN),
    "folder": (3, UNWRITTEN),
    "no folder": (3, UNWRITTEN),
    "no permission": (3, UNWRITTEN),
    "an input": (3, UNWRITTEN),
}
DEVICES = {"null device": "/dev/null", "full device": "/dev/full"}
UNREADABLE = ("held in a folder that can't be read", "in a folder that can't be read")
# Kinds of a file that is made in the same folder, whose name can't be synced either if that folder can't be read.
MADE_ASIDE = ("in a folder", "link to nothing")
# Kinds that need permissions, which don't bind root.
BOUND = ("no permission", *UNREADABLE)
READ_STATUS = {"cca: refused": 3, "cca: read": 4, "cca: limit": 7, "cca: write": 5}


class Word(NamedTuple):
    """An argument of a command that names a file: its role in the command, the kind of the file, and its text."""

    role: str
    kind: str
    is_read: bool
    text: bytes


class Scene(NamedTuple):
    """A command and the files of its arguments. `rest` are the arguments that name no file, by their place before or
    after."""

    command: str
    files: tuple[Word, ...]
    number: str
    flags: tuple[str, ...]

    def words(self) -> list[str]:
        return [self.command, *([self.number] if self.number else []), *map(self.name, self.files), *self.flags]

    def name(self, file: Word) -> str:
        """The argument for a file."""
        if file.kind == "standard input":
            return "/dev/stdin"
        if file.kind == "an input":
            return "./" + self.files[0].role
        if file.kind in ("in a folder", *UNREADABLE):
            return f"aside/{file.role}"
        if file.kind == "no folder":
            return f"nowhere/{file.role}"
        return DEVICES.get(file.kind, file.role)

    def targets(self) -> set[str]:
        """The paths of the regular files that a run may append to."""
        found: set[str] = set()
        for file in self.files:
            if not file.is_read and file.kind in ("new", "held", "hard link"):
                found.add(file.role)
            if not file.is_read and file.kind in ("link", "link to nothing", "hard link", "in a folder", *UNREADABLE):
                found.add(f"aside/{file.role}")
        return found

    def needs_user(self) -> bool:
        """Whether the files have to belong to a user whom permissions bind."""
        return os.geteuid() == 0 and any(file.kind in BOUND for file in self.files)

    def given(self) -> bytes | None:
        """What is given as the standard input, if anything is."""
        return next((file.text for file in self.files if file.kind == "standard input"), None)

    def pipes(self) -> list[Word]:
        return [file for file in self.files if file.kind == "named pipe"]

    def is_plain(self) -> bool:
        """Whether all files are right and plain, so that this scene is drawn often."""
        return all(file.kind in ("right", "new", "held") for file in self.files)

    def is_unread_and_new(self) -> bool:
        """Whether a run leaves a file whose name can't be synced."""
        return any(file.kind == "in a folder that can't be read" for file in self.files)

    def lines(self) -> list[str | None]:
        """For each file the last line of a run that meets it: nothing if it goes on, and None if nobody knows."""
        found = []
        for file in self.files:
            line = (INPUTS if file.is_read else OUTPUTS)[file.kind][1]
            first = {"award": "1 0", "log": "1"}.get(file.role, "0")
            found.append(line and line.format(role=file.role, first=first, beyond=LIMITS[file.role] + 1))
        return found

    def last_line(self) -> str | None:
        """The expected last line of a run without a fault: nothing if it is done, and None if nobody knows."""
        return next((line for line in self.lines() if line != ""), "")

    def shown(self) -> str:
        """A description of the scene."""
        kinds = ", ".join(f"{file.role} {file.kind}" for file in self.files)
        return f"{' '.join(self.words())} ({kinds})"


def status_of(line: str) -> int:
    """The status of the last line of a run."""
    return next((status for begin, status in READ_STATUS.items() if line.startswith(begin)), 0)


def sample(name: str) -> bytes:
    return (EXAMPLES / name).read_bytes()


# The texts for the program's certificates, by their roles.
SOURCES: list[dict[str, bytes]] = [
    {
        "award": sample("spectrum.award"),
        "log": sample("spectrum.log"),
        "book": sample("day-cramton.book"),
        "weights": sample("day-cramton.weights"),
        "edits": sample("day-cramton.edits"),
        "slots": sample("band.slots"),
    },
    {
        "award": b"version = 2\ntick = 1\n"
        b'category = [{ name = "lot", supply = 2, points = 1, reserve = 1 }]\n'
        b'bidder = [{ name = "x", eligibility = 2 }, { name = "y", eligibility = 2 }]\n'
        b"step = [{ excess = 1, permille = 1000 }]\n",
        "log": b"bid,x,2,\nbid,y,1,\nclose,,,\nbid,x,1,\nbid,y,1,\nclose,,,\ndraft,x,2,6\nsubmit,x,,\nclose,,,\n",
        "book": sample("tie.book"),
        "weights": b"weights 1\nweight east 2\nweight west 1\nend\n",
        "edits": b"edits 1\nraise west 1 7\ndrop east 2\nend\n",
        "slots": b"slots 1\nband 2\nbidder x 1\nplace 1 3\nplace 2 4\nbidder y 1\nplace 1 2\nend\n",
    },
    {
        "award": made_auction.award_text().encode(),
        "log": made_auction.log_text(7).encode(),
        "book": sample("six-bidders.book"),
        "weights": b"weights 1\n" + b"".join(b"weight p%d 1\n" % k for k in range(1, 7)) + b"end\n",
        "edits": b"edits 1\ndrop p1 2 0 0 0\nadd p3 1 0 0 0 300000\nend\n",
        "slots": sample("band.slots"),
    },
]
# Texts that a right program makes of the sources, by the source and the command.
KNOWN = {(0, "award"): sample("spectrum.cert"), (0, "price"): sample("day-cramton.cert")}


def certificates(program: str, folder: pathlib.Path, at: int) -> dict[str, bytes]:
    """The certificates that the program makes of a source, by the command that tests each."""
    for role, text in SOURCES[at].items():
        (folder / role).write_bytes(text)
    found = {}
    for command, tester in TESTED_BY.items():
        cert = folder / "cert"
        words = [program, command, *COMMANDS[command][0], "cert"]
        subprocess.run(words, cwd=folder, check=True, stdin=subprocess.DEVNULL, capture_output=True)
        found[tester] = cert.read_bytes()
        if found[tester] != KNOWN.get((at, command), found[tester]):
            raise SystemExit(f"{command}: not the certificate of examples/")
        cert.unlink()
    return found


def right_texts(program: str, folder: pathlib.Path) -> list[dict[tuple[str, str], bytes]]:
    """For each source the right text of each file that a command reads, by the command and the role."""
    found = []
    for at, source in enumerate(SOURCES):
        certs = certificates(program, folder, at)
        found.append(
            {
                (command, role): certs[command] if role == "cert" else source[role]
                for command, (reads, _) in COMMANDS.items()
                for role in reads
            }
        )
    return found


def mutated(rng: random.Random, text: bytes) -> bytes:
    """The text with one to three changes."""
    changed = text.decode("latin-1")
    for _ in range(rng.randint(1, 3)):
        has_numbers = damage.NUMBER.search(changed) and damage.LINE.search(changed)
        if changed and has_numbers and rng.random() < 0.6:
            changed = damage.broken(rng, changed) if rng.random() < 0.5 else damage.respelt(rng, changed)
        elif changed.splitlines():
            changed = damage.slipped(rng, changed) if has_numbers else changed[: rng.randrange(len(changed))]
    return changed.encode("latin-1", errors="replace")


def kind_of(rng: random.Random, kinds: Mapping[str, tuple[int, str | None]], left_out: Sequence[str]) -> str:
    names = [name for name in kinds if name not in left_out]
    return rng.choices(names, [kinds[name][0] for name in names])[0]


def drawn(rng: random.Random, right: list[dict[tuple[str, str], bytes]], command: str = "") -> Scene:
    """A scene: in half of them all files are right and plain."""
    command = command or rng.choice(list(COMMANDS))
    source, is_plain = rng.choice(right), rng.random() < 0.5
    reads, appends = COMMANDS[command]
    files: list[Word] = []
    # (permissions don't bind a user who may change them)
    never = [] if os.geteuid() == 0 else [*BOUND]
    for role in reads:
        left_out = [*never, *(["standard input"] if any(it.kind == "standard input" for it in files) else [])]
        kind = "right" if is_plain else kind_of(rng, INPUTS, left_out)
        text = source[command, role]
        files.append(Word(role, kind, True, mutated(rng, text) if kind == "mutated" else text))
    for role in appends:
        has_input = any(it.kind in ("right", "mutated", "empty", "link", "hard link") for it in files[:1])
        kinds = {it.kind for it in files}
        left_out = [*never, *([] if has_input else ["an input"])]
        left_out += UNREADABLE if kinds & {*MADE_ASIDE} else MADE_ASIDE if kinds & {*UNREADABLE} else ()
        kind = rng.choice(["new", "held"]) if is_plain else kind_of(rng, OUTPUTS, left_out)
        if kind in DEVICES and any(it.kind == kind for it in files):
            kind = "new"
        files.append(Word(role, kind, False, HELD))
    number = str(rng.choice([0, 7, 4_294_967_295])) if command == "make" else ""
    flags = tuple(it for it in FLAGS.get(command, ()) if rng.random() < 0.2)
    return Scene(command, tuple(files), number, flags)


def put(folder: pathlib.Path, file: Word) -> None:
    """Makes the file of an argument."""
    path, aside = folder / file.role, folder / "aside" / file.role
    if file.kind in ("right", "mutated", "held", "no permission"):
        path.write_bytes(file.text)
    elif file.kind == "empty":
        path.touch()
    elif file.kind == "huge":
        with path.open("wb") as grown:
            grown.truncate(LIMITS[file.role] + (1 if file.role == "cert" else 10**9))
    elif file.kind == "folder":
        path.mkdir()
        (path / "inside").write_bytes(HELD)
    elif file.kind == "loop of links":
        path.symlink_to(file.role)
    elif file.kind in ("link", "link to nothing"):
        if file.kind == "link":
            aside.write_bytes(file.text)
        path.symlink_to(f"aside/{file.role}")
    elif file.kind == "hard link":
        aside.write_bytes(file.text)
        path.hardlink_to(aside)
    elif file.kind == "named pipe":
        os.mkfifo(path)
    elif file.kind == "held in a folder that can't be read":
        aside.write_bytes(file.text)
    if file.kind == "no permission":
        path.chmod(0)


def fill(folder: pathlib.Path, scene: Scene) -> None:
    """Empties the folder, and puts the files of the scene there."""
    for path in folder.iterdir():
        shutil.rmtree(path) if path.is_dir() and not path.is_symlink() else path.unlink()
    (folder / "aside").mkdir()
    for file in scene.files:
        put(folder, file)
    if scene.needs_user():
        for path in (folder, *folder.rglob("*")):
            os.chown(path, NOBODY, NOBODY, follow_symlinks=False)
    else:
        os.chown(folder, os.geteuid(), os.getegid())
    if any(file.kind in UNREADABLE for file in scene.files):
        (folder / "aside").chmod(0o300)


class Left(NamedTuple):
    """A regular file that was left: its text, if it isn't huge, and what changes with its text."""

    text: bytes
    signs: tuple[int, ...]


def left(folder: pathlib.Path) -> dict[str, Left]:
    """The regular files of a folder, by their paths in it."""
    found = {}
    for path in sorted(folder.rglob("*")):
        if path.is_file() and not path.is_symlink():
            told = path.stat()
            signs = (told.st_dev, told.st_ino, told.st_mode, told.st_size, told.st_mtime_ns, told.st_ctime_ns)
            found[str(path.relative_to(folder))] = Left(path.read_bytes() if told.st_size < 2**22 else b"", signs)
    return found


class Feeder:
    """Writes the texts of the named pipes of a scene in pieces, while a run reads them."""

    def __init__(self, folder: pathlib.Path, scene: Scene, rng: random.Random) -> None:
        self.paths = [folder / file.role for file in scene.pipes()]
        self.threads = [
            threading.Thread(target=self.feed, args=(path, file.text, rng.choice([1, 13, 100, 4096])))
            for path, file in zip(self.paths, scene.pipes())
        ]

    @staticmethod
    def feed(path: pathlib.Path, text: bytes, size: int) -> None:
        first = 40 * size
        pieces = [text[at : at + size] for at in range(0, min(len(text), first), size)] + [text[first:]]
        try:
            with path.open("wb", buffering=0) as pipe:
                for piece in pieces:
                    pipe.write(piece)
        except BrokenPipeError:
            pass

    def start(self) -> None:
        for thread in self.threads:
            thread.start()

    def end(self) -> None:
        """Ends those whose pipe nobody reads."""
        for path, thread in zip(self.paths, self.threads):
            while thread.is_alive():
                os.close(os.open(path, os.O_RDONLY | os.O_NONBLOCK))
                thread.join(0.01)


def full_pipe(text: bytes) -> int:
    """The reading end of a pipe that contains this text, and that nobody writes to."""
    reading, writing = os.pipe()
    fcntl.fcntl(writing, fcntl.F_SETPIPE_SZ, 2**20)
    os.set_blocking(writing, False)
    with open(writing, "wb") as pipe:
        pipe.write(text)
    return reading
