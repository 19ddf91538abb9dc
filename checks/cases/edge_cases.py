"""Cases at the edge to the system: one file as two arguments, pipes, devices, other writers, syncs and signals.

Each case makes its files in a folder of its own, runs the program there, and tests the status, the last line and the
bytes of every file.
"""

from __future__ import annotations

import os
import resource
import shutil
import signal
import subprocess
import tempfile
import threading
import time
from collections.abc import Callable, Sequence
from typing import Any

from checks.cases.limit_books import CCA, HERE

EXAMPLES = os.path.abspath(os.path.join(HERE, "..", "examples"))
SECONDS = 60
SAMPLES = {
    "award": "spectrum.award",
    "log": "spectrum.log",
    "book": "day-cramton.book",
    "weights": "day-cramton.weights",
    "slots": "band.slots",
    "edits": "day-cramton.edits",
}
# each command that appends, with the files that it reads and the one that it appends to
WRITERS: list[tuple[str, tuple[str, ...], str]] = [
    ("price", ("book",), "cert"),
    ("weigh", ("book", "weights"), "cert"),
    ("auction", ("award", "log"), "book"),
    ("award", ("award", "log"), "cert"),
    ("place", ("slots",), "cert"),
]
# each command that only reads, with its files
READERS: list[tuple[str, tuple[str, ...]]] = [
    ("win", ("book",)),
    ("check", ("book", "cert")),
    ("weigh-check", ("book", "weights", "weighed")),
    ("audit", ("award", "log", "awarded")),
    ("place-check", ("slots", "placed")),
    ("review", ("book", "edits")),
]


def text_of(name: str) -> bytes:
    with open(name, "rb") as f:
        return f.read()


def texts() -> dict[str, bytes]:
    return {name: text_of(name) for name in sorted(os.listdir(".")) if os.path.isfile(name)}


def ended(words: Sequence[str], code: int, line: bytes | None = None, **how: Any) -> bytes:
    """What a run prints that ends with this code, and whose last line this is."""
    how.setdefault("stdin", subprocess.DEVNULL)
    if "input" in how:
        del how["stdin"]
    made = subprocess.run(
        [CCA, *words], stdout=how.pop("stdout", subprocess.PIPE), stderr=subprocess.PIPE, timeout=SECONDS, **how
    )
    told = (words, made.returncode, (made.stdout or b"")[-200:])
    assert made.stderr == b"" and made.returncode == code, told
    assert line is None or made.stdout.splitlines()[-1:] == [line], told
    printed: bytes = made.stdout
    return printed


def samples() -> None:
    """The samples in this folder, with the certificates that belong to them."""
    for kind, name in SAMPLES.items():
        shutil.copyfile(os.path.join(EXAMPLES, name), kind)
    for words in (
        ("price", "book", "cert"),
        ("weigh", "book", "weights", "weighed"),
        ("award", "award", "log", "awarded"),
        ("place", "slots", "placed"),
    ):
        ended(words, 0)


def other_names(name: str) -> list[str]:
    """Names of one file: spellings, a symbolic and a hard link, and a way through a link of the folder."""
    os.symlink(name, "link")
    os.link(name, "hard")
    os.symlink(".", "here")
    return [
        "./" + name,
        "here/../" + os.path.basename(os.getcwd()) + "/" + name,
        os.path.abspath(name),
        "link",
        "hard",
        "here/" + name,
    ]


def one_file_under_two_words() -> None:
    for command, inputs, output in WRITERS:
        for kind in inputs:
            samples()
            before = texts()
            for other in other_names(kind):
                ended((command, *inputs, other), 5, b"cca: write fault " + output.encode())
                assert {name: text for name, text in texts().items() if name not in ("link", "hard")} == before, (
                    command,
                    other,
                )
            for name in ("link", "hard", "here"):
                os.remove(name)


def two_outputs_that_are_one_file() -> None:
    ended(("make", "7", "award", "log"), 0)
    award = text_of("award")
    with open("x", "wb") as f:
        f.write(b"kept\n")
    for turn, other in enumerate(other_names("x")):
        ended(("make", "7", "x", other), 5, b"cca: write fault log")
        assert text_of("x") == b"kept\n" + award * (turn + 1), other
    os.remove("x")
    ended(("make", "7", "x", "./x"), 5, b"cca: write fault log")
    assert text_of("x") == award


def words_that_name_no_file() -> None:
    samples()
    for command, words, flag in (("award", ("award", "log", "new"), "--json"), ("price", ("book", "new"), "--rounds")):
        open("new", "wb").close()
        for name in (command, flag):
            if not os.path.exists(name):
                os.link("new", name)
        ended((command, *words, flag), 0)
        for name in {"new", command, flag} - set(SAMPLES):
            os.remove(name)
    open("made", "wb").close()
    os.link("made", "7")
    ended(("make", "7", "made", "log2"), 0)


def fed(text: bytes, pieces: int) -> threading.Thread:
    """A named pipe that gets the text in this many pieces, and the process that writes it."""
    os.mkfifo("fifo")

    def write() -> None:
        with open("fifo", "wb", buffering=0) as f:
            for k in range(pieces):
                f.write(text[len(text) * k // pieces : len(text) * (k + 1) // pieces])
                time.sleep(0.01)

    writer = threading.Thread(target=write)
    writer.start()
    return writer


def made_by(words: Sequence[str], new: Sequence[str], **how: Any) -> tuple[bytes, list[bytes]]:
    """What a run prints, and the file that it appends to, if there is one; that file is removed again."""
    printed = ended((*words, *new), 0, **how)
    made = [text_of(name) for name in new]
    for name in new:
        os.remove(name)
    return printed, made


def through_a_pipe(
    command: str, inputs: Sequence[str], place: int, new: Sequence[str], wanted: tuple[bytes, list[bytes]]
) -> None:
    """One input as the standard input, and as a named pipe that gets it in three pieces."""
    text = text_of(inputs[place])
    words = [(command, *inputs[:place], name, *inputs[place + 1 :]) for name in ("/dev/stdin", "fifo")]
    assert made_by(words[0], new, input=text) == wanted, words[0]
    writer = fed(text, 3)
    assert made_by(words[1], new) == wanted, words[1]
    writer.join()
    os.remove("fifo")


def pipes_to_read() -> None:
    samples()
    none: list[str] = []
    writers = [(command, inputs, ["new"]) for command, inputs, _ in WRITERS]
    for command, inputs, new in [*((command, inputs, none) for command, inputs in READERS), *writers]:
        wanted = made_by((command, *inputs), new)
        for place in range(len(inputs)):
            through_a_pipe(command, inputs, place, new, wanted)


def pipes_to_append_to() -> None:
    samples()
    printed = ended(("price", "book", "new"), 0)
    assert ended(("price", "book", "/dev/stdout"), 0) == text_of("new") + printed


def devices_and_folders() -> None:
    samples()
    os.mkdir("folder")
    ended(("price", "book", "/dev/null"), 0)
    ended(("win", "/dev/null"), 3, b"cca: refused book 0")
    ended(("win", "folder"), 4, b"cca: read fault book")
    ended(("price", "book", "folder"), 5, b"cca: write fault cert")
    ended(("price", "book", "missing/cert"), 5, b"cca: write fault cert")
    if os.path.exists("/dev/full"):
        ended(("price", "book", "/dev/full"), 5, b"cca: write fault cert")
    if os.path.exists("/dev/zero"):
        ended(("win", "/dev/zero"), 7, b"cca: limit bytes 1048577")


def two_runs_at_once() -> list[int]:
    samples()
    ended(("award", "award", "log", "whole"), 0)
    whole, counts = text_of("whole"), [0, 0]
    for _ in range(50):
        runs = [subprocess.Popen([CCA, "award", "award", "log", "both"], stdout=subprocess.PIPE) for _ in range(2)]
        printed = [run.communicate(timeout=SECONDS)[0] for run in runs]
        codes = [run.returncode for run in runs]
        assert 0 in codes and set(codes) <= {0, 5}, codes
        assert all(code == 0 or out == b"cca: write fault cert\n" for code, out in zip(codes, printed)), printed
        assert text_of("both") == whole * codes.count(0), codes
        counts[codes.count(0) - 1] += 1
        os.remove("both")
    return counts


def full_pipe() -> tuple[int, int]:
    reading, writing = os.pipe()
    os.set_blocking(writing, False)
    try:
        while True:
            os.write(writing, b" " * 4096)
    except BlockingIOError:
        os.set_blocking(writing, True)
    return reading, writing


def stopped_run() -> None:
    """A run that is stopped keeps the lock on its file until it is killed; its output is a pipe that is full, so it
    can't end."""
    samples()
    ended(("price", "book", "whole"), 0)
    whole = text_of("whole")
    reading, writing = full_pipe()
    held = subprocess.Popen([CCA, "price", "book", "new"], stdout=writing)
    try:
        waited = time.monotonic()
        while not os.path.exists("new") or text_of("new") != whole:
            assert time.monotonic() < waited + SECONDS
            time.sleep(0.01)
        held.send_signal(signal.SIGSTOP)
        ended(("price", "book", "new"), 5, b"cca: write fault cert")
        ended(("weigh", "book", "weights", "./new"), 5, b"cca: write fault cert")
        assert text_of("new") == whole
    finally:
        held.kill()
        held.wait()
        os.close(reading)
        os.close(writing)
    ended(("price", "book", "new"), 0)
    assert text_of("new") == whole * 2


def traced(words: Sequence[str], *options: str) -> tuple[int, bytes, list[bytes]]:
    """How a run ends that strace looks at, and the lines of the trace."""
    made = subprocess.run(
        ["strace", "-f", "-o", "trace", *options, CCA, *words],
        stdin=subprocess.DEVNULL,
        capture_output=True,
        timeout=SECONDS,
    )
    return made.returncode, made.stdout, text_of("trace").splitlines()


def syncs() -> bool:
    """What is appended to a regular file is synced before the run ends, and a sync that fails is a fault of writing.
    Needs strace."""
    samples()
    try:
        traced(("win", "book"))
    except (OSError, subprocess.SubprocessError):
        return False
    calls = "trace=write,fsync,fdatasync"
    code, _, lines = traced(("price", "book", "new"), "-e", calls)
    assert code == 0, lines
    kinds = [line.split(b"(")[0].split()[-1] for line in lines if b"(" in line]
    # (the file, and then its folder)
    assert kinds == [b"write", b"fsync", b"fsync", b"write"], lines
    code, _, lines = traced(("price", "book", "/dev/null"), "-e", calls)
    assert code == 0 and not any(b"sync(" in line for line in lines), lines
    code, printed, lines = traced(("price", "book", "other"), "-e", calls, "-e", "inject=fsync,fdatasync:error=EIO")
    assert (code, printed) == (5, b"cca: write fault cert\n"), (code, printed, lines)
    return True


def signals() -> None:
    samples()
    reading, writing = os.pipe()
    os.close(reading)
    ended(("win", "book"), 5, stdout=writing)
    os.close(writing)

    def small() -> None:
        resource.setrlimit(resource.RLIMIT_FSIZE, (100, 100))

    def small_and_ignored() -> None:
        small()
        signal.signal(signal.SIGXFSZ, signal.SIG_IGN)

    ended(("price", "book", "new"), -signal.SIGXFSZ, preexec_fn=small)
    assert len(text_of("new")) == 100
    os.remove("new")
    ended(("price", "book", "new"), 5, b"cca: write fault cert", preexec_fn=small_and_ignored, restore_signals=False)
    assert len(text_of("new")) == 100


def close(streams: Sequence[int]) -> None:
    """Closes these streams."""
    for stream in streams:
        os.close(stream)


def closed_streams() -> None:
    """A stream that is closed leaves its number free; no file of the command may take it."""
    samples()
    ended(("price", "book", "whole"), 0)
    for streams in ((1,), (0, 1), (0, 1, 2)):
        before = texts()
        ended(("price", "book", "new"), 5, stdout=subprocess.DEVNULL, preexec_fn=lambda: close(streams))
        assert text_of("new") == text_of("whole"), streams
        os.remove("new")
        assert texts() == before, streams
    ended(("check", "book", "/dev/stdin"), 4, b"cca: read fault cert", preexec_fn=lambda: close([0]))


def run_all() -> None:
    cases: list[Callable[[], object]] = [
        one_file_under_two_words,
        two_outputs_that_are_one_file,
        words_that_name_no_file,
        pipes_to_read,
        pipes_to_append_to,
        devices_and_folders,
        two_runs_at_once,
        stopped_run,
        syncs,
        signals,
        closed_streams,
    ]
    here = os.getcwd()
    for case in cases:
        with tempfile.TemporaryDirectory() as folder:
            os.chdir(folder)
            try:
                answer = case()
            finally:
                os.chdir(here)
        if case is syncs and not answer:
            print("syncs: not tested, since strace can't be run")
        if case is two_runs_at_once and isinstance(answer, list):
            print(f"two runs at once: {answer[0]} times one was refused, {answer[1]} times one text follows the other")
    print(f"{len(cases)} cases at the edge to the system: all ended as they have to")
