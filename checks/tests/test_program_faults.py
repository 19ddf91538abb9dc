"""The program where the system fails: each call of `award`, `price`, `auction` and `make`, once, forever, two at once,
and killed at it.

strace makes the calls fail. If it isn't installed, or may not trace, these tests are skipped, and a line says so.
"""
import contextlib
import os
import random
import re
import signal
import subprocess
import sys
import tempfile
import threading
import typing
import unittest
from checks.cases.program import PROGRAM, read, with_program
from checks.cases.samples import sample

SECONDS = 60
CCA = os.path.abspath(PROGRAM or "")
# Each command with the files that it reads and those that it appends to.
COMMANDS: dict[str, tuple[tuple[str, ...], tuple[str, ...]]] = {
    "award": (("award", "log"), ("cert",)),
    "price": (("book",), ("cert",)),
    "auction": (("award", "log"), ("book",)),
    "make": ((), ("award", "log")),
}
INPUTS = {
    "award": b"""version = 2
tick = 1
category = [{ name = "lot", supply = 2, points = 1, reserve = 1 }]
bidder = [{ name = "x", eligibility = 2 }, { name = "y", eligibility = 2 }]
step = [{ excess = 1, permille = 1000 }]
""",
    "log": b"bid,x,2,\nbid,y,1,\nclose,,,\nbid,x,1,\nbid,y,1,\nclose,,,\ndraft,x,2,6\nsubmit,x,,\nclose,,,\n",
    "book": sample("day-cramton.book"),
}
KEPT = b"kept\n"
BOTH = [(command, held) for command in COMMANDS for held in (False, True)]
# The errors that a kernel answers to a call. A call that isn't named here doesn't fail.
ERRORS = {
    "openat": ("EACCES", "EMFILE"),
    "fcntl": ("EMFILE",),
    "statx": ("EACCES", "ENOMEM"),
    "read": ("EIO", "EISDIR"),
    "lseek": ("ESPIPE",),
    "write": ("EIO", "ENOSPC", "EAGAIN"),
    "flock": ("EAGAIN", "ENOLCK"),
    "fsync": ("EIO", "EDQUOT"),
    "readlink": ("EIO",),
    "mmap": ("ENOMEM",),
    "close": ("EIO",),
}
# Calls that cca makes again if a signal interrupts them, and those that the kit's library makes again, without an end
# that anybody sees.
AGAIN = ("statx", "read", "write", "fcntl")
AGAIN_FOR_EVER = ("openat", "flock", "fsync")
OWN_FIRST = re.compile(r'statx\(AT_FDCWD, "/proc/self/fd/1"')
CALL = re.compile(r"(?:\d+ +)?(\w+)\(")
# What is printed with each status except 0, as far as the output takes it.
LINES = {4: rb"\Acca: read fault \w+\n\Z", 5: rb"\A", 6: rb"\A(cca: memory\n)?\Z"}


def can_trace() -> bool:
    """Whether strace is there and may trace a process."""
    with contextlib.suppress(OSError, subprocess.SubprocessError):
        return (
            subprocess.run(["strace", "-o", os.devnull, "true"], capture_output=True, timeout=SECONDS).returncode == 0
        )
    return False


UNTRACED = "strace isn't installed, or may not trace: no call of the system was made to fail"
TRACES = bool(PROGRAM) and can_trace()
if PROGRAM and not TRACES:
    print(UNTRACED, file=sys.stderr)
with_strace = unittest.skipUnless(TRACES, UNTRACED)


class Fault(typing.NamedTuple):
    """A call by its name and its number among the calls of its name, and what it returns: the form of strace's
    `inject`."""

    call: str
    when: str
    how: str

    def words(self) -> list[str]:
        return ["-e", f"inject={self.call}:{self.how}:when={self.when}"]


class Ended(typing.NamedTuple):
    status: int
    printed: bytes
    files: dict[str, bytes]


class Folder:
    """A folder with the files of a command, which is made again for each run."""

    def __init__(self, path: str, command: str, held: bool) -> None:
        self.path, self.command, self.held = path, command, held
        self.reads, self.appends = COMMANDS[command]
        self.given = {name: INPUTS[name] for name in self.reads}
        self.whole = self.run()

    def words(self) -> list[str]:
        numbers = ["7"] if self.command == "make" else []
        return [self.command, *numbers, *self.reads, *self.appends]

    def fill(self) -> None:
        for name in os.listdir(self.path):
            os.remove(os.path.join(self.path, name))
        for name, text in {**self.given, **{name: KEPT for name in self.appends if self.held}}.items():
            with open(os.path.join(self.path, name), "wb") as file:
                file.write(text)

    def left(self) -> dict[str, bytes]:
        return {name: read(os.path.join(self.path, name)) for name in os.listdir(self.path)}

    def run(self, *faults: Fault, trace: str = os.devnull, calls: str = "") -> Ended:
        """Fills the folder, and runs the command with these faults."""
        self.fill()
        shown = calls or ",".join({fault.call for fault in faults} or {"none"})
        words = ["strace", "-f", "-qq", "-o", trace, "-e", f"trace={shown}", "-e", "signal=none"]
        words += [word for fault in faults for word in fault.words()]
        how: dict[str, typing.Any] = {"stdin": subprocess.DEVNULL, "capture_output": True, "timeout": SECONDS}
        ended = subprocess.run([*words, CCA, *self.words()], cwd=self.path, **how)
        return Ended(ended.returncode, ended.stdout, self.left())


class Case(unittest.TestCase):
    """Runs of one command on a file that is missing, or that isn't empty."""

    runs = 0
    rng: random.Random

    @classmethod
    def setUpClass(cls) -> None:
        super().setUpClass()
        cls.rng = random.Random(cls.__name__)

    @classmethod
    def tearDownClass(cls) -> None:
        super().tearDownClass()
        print(f"{cls.__name__}: {cls.runs} runs with faults of the system", file=sys.stderr)

    @contextlib.contextmanager
    def folder(self, command: str, held: bool) -> typing.Iterator[Folder]:
        with tempfile.TemporaryDirectory() as path:
            folder = Folder(path, command, held)
            self.assertEqual(folder.whole.status, 0)
            yield folder

    def calls(self, folder: Folder) -> list[tuple[str, int]]:
        """The calls of a run by name, and how many of each the loader makes before the program begins."""
        with tempfile.NamedTemporaryFile("r") as trace:
            folder.run(trace=trace.name, calls=",".join(ERRORS))
            text = trace.read().splitlines()
        begin = next(k for k, line in enumerate(text) if OWN_FIRST.search(line))
        names = [found[1] if (found := CALL.match(line)) else "" for line in text]
        return [(name, names[: k + 1].count(name)) for k, name in enumerate(names) if name in ERRORS and k >= begin]

    def ends_well(self, folder: Folder, ended: Ended, told: object) -> None:
        """Each file has its old bytes and a prefix of its new text, and what was printed agrees with the status."""
        whole, type(self).runs = folder.whole, type(self).runs + 1
        self.assertIn(ended.status, (0, 4, 5, 6), told)
        for name, text in folder.given.items():
            self.assertEqual(ended.files[name], text, told)
        for name in folder.appends:
            self.assertTrue(whole.files[name].startswith(ended.files.get(name, b"")), told)
            held = KEPT if folder.held else b""
            self.assertTrue(ended.files.get(name, b"").startswith(held), told)
        self.assertLessEqual(set(ended.files), set(whole.files), told)
        if ended.status == 0:
            self.assertEqual(ended, whole, told)
        else:
            self.assertRegex(ended.printed, LINES[ended.status], told)
            self.assertTrue(ended.printed.startswith(b"cca:") or whole.printed.startswith(ended.printed), told)
        if ended.status in (4, 6):
            self.assertEqual(
                {name: ended.files.get(name, b"") for name in folder.appends},
                {name: KEPT if folder.held else b"" for name in folder.appends},
                told,
            )


@with_program
@with_strace
class Faults(Case):
    def each(self, command: str, held: bool) -> typing.Iterator[tuple[Folder, str, int]]:
        with self.folder(command, held) as folder:
            for name, number in self.calls(folder):
                yield folder, name, number

    def test_each_call_fails_once(self) -> None:
        for command, held in BOTH:
            for folder, name, number in self.each(command, held):
                error = self.rng.choice(ERRORS[name])
                fault = Fault(name, str(number), f"error={error}")
                self.ends_well(folder, folder.run(fault), (command, held, fault))

    def test_each_call_fails_for_ever(self) -> None:
        for command, held in BOTH:
            for folder, name, number in self.each(command, held):
                fault = Fault(name, f"{number}+", f"error={self.rng.choice(ERRORS[name])}")
                self.ends_well(folder, folder.run(fault), (command, held, fault))

    def test_two_calls_fail(self) -> None:
        for command, held in BOTH:
            with self.folder(command, held) as folder:
                calls = self.calls(folder)
                for _ in range(20):
                    faults = [
                        Fault(
                            name,
                            str(number) + self.rng.choice(("", "+")),
                            f"error={self.rng.choice(ERRORS[name])}",
                        )
                        for name, number in self.rng.sample(calls, 2)
                    ]
                    self.ends_well(folder, folder.run(*faults), (command, held, faults))

    def test_a_call_that_a_signal_interrupts_is_made_again(self) -> None:
        for command, held in BOTH:
            for folder, name, number in self.each(command, held):
                if name in AGAIN + AGAIN_FOR_EVER:
                    fault = Fault(name, str(number), "error=EINTR")
                    ended = folder.run(fault)
                    self.ends_well(folder, ended, (command, held, fault))
                    self.assertEqual(ended.status, 0, (command, held, fault))

    def test_a_call_that_signals_interrupt_for_ever_is_given_up(self) -> None:
        for command, held in BOTH:
            for folder, name, number in self.each(command, held):
                if name in AGAIN:
                    fault = Fault(name, f"{number}+", "error=EINTR")
                    self.ends_well(folder, folder.run(fault), (command, held, fault))

    def test_killed_at_each_call(self) -> None:
        for command, held in BOTH:
            for folder, name, number in self.each(command, held):
                fault = Fault(name, str(number), "signal=KILL")
                ended = folder.run(fault)
                self.assertEqual(ended.status, -signal.SIGKILL, fault)
                self.ends_well(folder, ended._replace(status=5), (command, held, fault))


@with_program
@with_strace
class Syncs(Case):
    """What is on the disk before a run is done: the text, the name of a new file, and that the name means it."""

    def order(self, command: str, held: bool, *faults: Fault) -> tuple[Ended, list[tuple[str, str]]]:
        with self.folder(command, held) as folder, tempfile.NamedTemporaryFile("r") as trace:
            ended = folder.run(*faults, trace=trace.name, calls="openat,write,fsync,fdatasync")
            return ended, re.findall(r"(write|fsync|fdatasync)\((\d+)", trace.read())

    def test_a_text_is_synced_before_anything_is_printed(self) -> None:
        for command in COMMANDS:
            for held in (False, True):
                ended, calls = self.order(command, held)
                self.assertEqual(ended.status, 0)
                out = [k for k, (name, number) in enumerate(calls) if name == "write" and number == "1"]
                files = [k for k, (name, number) in enumerate(calls) if name == "write" and number != "1"]
                self.assertTrue(files and out and max(files) < min(out), calls)
                for k in files:
                    self.assertEqual(calls[k + 1], ("fsync", calls[k][1]), calls)

    def test_the_folder_of_a_new_file_is_synced_once(self) -> None:
        for command, (_, appends) in COMMANDS.items():
            for held in (False, True):
                _, calls = self.order(command, held)
                writes, syncs = (
                    sum(name == kind and number != "1" for name, number in calls) for kind in ("write", "fsync")
                )
                self.assertEqual(syncs - writes, 0 if held else len(appends), calls)

    def test_the_folder_that_is_synced_is_that_of_the_file(self) -> None:
        """For a plain name, a name in a folder below, a whole path, and a link whose file is in another folder."""
        for name in ("cert", "below/cert", "{below}/cert", "link"):
            with tempfile.TemporaryDirectory() as folder, tempfile.NamedTemporaryFile("r") as trace:
                here = os.path.realpath(folder)
                below = os.path.join(here, "below")
                os.mkdir(below)
                os.symlink("below/cert", os.path.join(here, "link"))
                with open(os.path.join(here, "book"), "wb") as file:
                    file.write(INPUTS["book"])
                words = ["strace", "-f", "-qq", "-y", "-o", trace.name, "-e", "trace=fsync", "-e", "signal=none"]
                subprocess.run(
                    [*words, CCA, "price", "book", name.format(below=below)],
                    cwd=here,
                    stdin=subprocess.DEVNULL,
                    capture_output=True,
                    timeout=SECONDS,
                    check=True,
                )
                home = here if name == "cert" else below
                synced = re.findall(r"fsync\(\d+<([^>]*)>\)", trace.read())
                self.assertEqual(synced, [os.path.join(home, "cert"), home], name)

    def test_a_sync_that_fails_is_a_fault_of_writing(self) -> None:
        for command in COMMANDS:
            for held, number in ((False, 1), (False, 2), (True, 1)):
                ended, _ = self.order(command, held, Fault("fsync", str(number), "error=EIO"))
                name = COMMANDS[command][1][0]
                self.assertEqual((ended.status, ended.printed), (5, f"cca: write fault {name}\n".encode()))

    def test_the_name_has_to_mean_the_file_that_was_written(self) -> None:
        """The file is renamed while its sync waits."""
        for held in (False, True):
            with self.folder("price", held) as folder:
                folder.fill()
                words = [
                    "strace",
                    "-qq",
                    "-o",
                    os.devnull,
                    "-e",
                    "trace=fsync",
                    "-e",
                    "inject=fsync:delay_enter=1s:when=1",
                ]
                path, moved = (os.path.join(folder.path, name) for name in ("cert", "moved"))
                before = KEPT if held else b""
                with subprocess.Popen([*words, CCA, *folder.words()], cwd=folder.path, stdout=subprocess.PIPE) as run:
                    while not os.path.exists(path) or read(path) == before:
                        self.assertIsNone(run.poll())
                    os.rename(path, moved)
                    printed = run.communicate(timeout=SECONDS)[0]
                self.assertEqual((printed, run.returncode), (b"cca: write fault cert\n", 5))
                self.assertEqual(read(moved), folder.whole.files["cert"])


@with_program
@with_strace
class Short(Case):
    """Calls that do only a part of their work."""

    def test_short_writes(self) -> None:
        """If a write is reported as short, the next one writes the rest."""
        for command, held in BOTH:
            with self.folder(command, held) as folder:
                own = [number for name, number in self.calls(folder) if name == "write"]
                for number in own:
                    for taken in (1, 7, 20):
                        ended = folder.run(Fault("write", str(number), f"retval={taken}"))
                        type(self).runs += 1
                        self.assertEqual(ended.status, 0)
                        told = b"".join(ended.files[name] for name in folder.appends) + ended.printed
                        whole = b"".join(folder.whole.files[name] for name in folder.appends) + folder.whole.printed
                        self.assertEqual(len(told), len(whole) - taken, (command, number, taken))
                        self.assertTrue(
                            any(told == whole[:k] + whole[k + taken :] for k in range(len(told) + 1)),
                            (command, number, taken),
                        )

    def test_a_write_of_nothing_is_a_fault(self) -> None:
        for command, held in BOTH:
            with self.folder(command, held) as folder:
                for number in [number for name, number in self.calls(folder) if name == "write"]:
                    fault = Fault("write", str(number), "retval=0")
                    ended = folder.run(fault)
                    self.ends_well(folder, ended, (command, held, fault))
                    self.assertEqual(ended.status, 5)

    def test_short_reads(self) -> None:
        """A file that comes through a pipe in pieces is read as the file."""
        for command in ("award", "price", "auction"):
            with self.folder(command, False) as folder:
                for name, size in ((name, size) for name in folder.reads for size in (1, 13, 100)):
                    with self.subTest(command=command, name=name, size=size):
                        self.assertEqual(self.through_a_pipe(folder, name, size), folder.whole.printed)

    def through_a_pipe(self, folder: Folder, name: str, size: int) -> bytes:
        folder.fill()
        path, text = os.path.join(folder.path, name), folder.given[name]
        os.remove(path)
        os.mkfifo(path)
        pieces = [text[k : k + size] for k in range(0, min(len(text), 60 * size), size)]
        pieces.append(text[len(b"".join(pieces)) :])

        def feed() -> None:
            with open(path, "wb", buffering=0) as pipe:
                for piece in pieces:
                    pipe.write(piece)

        feeder = threading.Thread(target=feed)
        feeder.start()
        ended = subprocess.run(
            [CCA, *folder.words()], cwd=folder.path, stdin=subprocess.DEVNULL, capture_output=True, timeout=SECONDS
        )
        feeder.join()
        for appended in folder.appends:
            self.assertEqual(read(os.path.join(folder.path, appended)), folder.whole.files[appended])
        return ended.stdout
