"""Feeds changed awards, logs, books, slots, edits and certificates to every command, under limits of memory, file size
and time.

A run changes one or two files of a sample (bytes, lines, numbers, prefixes, parts of another file), draws a command,
and now and then a limit of memory, one of file size, or an output that takes nothing. It has to end in time with a
status of the table and its line. The files that it reads stay unchanged. The file that it appends to keeps its old
text, followed by all of the new text after a run that is done, a prefix of it after a fault of writing, and nothing new
otherwise. It prints how often each command ended with each status. Then come the cases of `edge_cases.py`. It needs
python3, and strace for the tests of syncs.
"""

from __future__ import annotations

import collections
import os
import pathlib
import random
import re
import resource
import signal
import subprocess
import tempfile
from collections.abc import Callable, Iterable, Mapping, Sequence

from checks.cases import edge_cases
from checks.cases.limit_books import CCA, HERE, build_cca

EXAMPLES = os.path.join(HERE, "..", "examples")
SECONDS = 60
STATUSES = {0: "done", 1: "no", 2: "words", 3: "refused", 4: "read", 5: "write", 6: "memory", 7: "limit"}
LINES = {
    1: rb"no [CP]\d \d+",
    3: rb"cca: refused (award|log|book|cert|weights|slots|edits) \d+( \d+)?",
    4: rb"cca: read fault (award|log|book|cert|weights|slots|edits)",
    5: rb"cca: write fault (award|log|book|cert|out)",
    6: rb"cca: memory",
    7: rb"cca: limit \w+ \d+",
}
# each command with the files that it reads, the file that it appends to, and its flags
COMMANDS: list[tuple[str, tuple[str, ...], str | None, tuple[str, ...]]] = [
    ("win", ("book",), None, ()),
    ("price", ("book",), "cert", ("--json", "--rounds")),
    ("check", ("book", "cert"), None, ()),
    ("weigh", ("book", "weights"), "cert", ("--json", "--rounds")),
    ("weigh-check", ("book", "weights", "cert"), None, ()),
    ("auction", ("award", "log"), "book", ()),
    ("award", ("award", "log"), "cert", ("--json", "--rounds")),
    ("audit", ("award", "log", "cert"), None, ()),
    ("place", ("slots",), "pcert", ("--rounds",)),
    ("place-check", ("slots", "pcert"), None, ()),
    ("review", ("book", "edits"), None, ()),
]
NUMBERS = [
    b"0",
    b"1",
    b"-1",
    b"999",
    b"1000",
    b"65535",
    b"65536",
    b"4294967296",
    b"9223372036854775808",
    b"18446744073709551616",
    b"1e3",
    b"007",
]


def originals() -> list[dict[str, bytes]]:
    """The samples by name: the bytes of each kind of file."""

    def read(name: str) -> bytes:
        with open(os.path.join(EXAMPLES, name), "rb") as f:
            return f.read()

    def book_of(name: str) -> bytes:
        with tempfile.TemporaryDirectory() as folder:
            book = os.path.join(folder, "book")
            award, log = (os.path.join(EXAMPLES, f"{name}.{kind}") for kind in ("award", "log"))
            subprocess.run([CCA, "auction", award, log, book], check=True, capture_output=True)
            with open(book, "rb") as f:
                return f.read()

    samples = [
        {"award": read("spectrum.award"), "log": read("spectrum.log"), "book": book_of("spectrum")},
        {"award": read("sample.award"), "log": read("spectrum.log"), "book": read("day-cramton.book")},
        {"award": read("spectrum.award"), "log": b"", "book": read("tie.book")},
    ]
    for sample in samples:
        names = re.findall(rb"^bidder (\w+)$", sample["book"], re.M)
        sample["weights"] = (
            b"weights 1\n" + b"".join(b"weight %s %d\n" % (name, 1 + k % 20) for k, name in enumerate(names)) + b"end\n"
        )
        with tempfile.TemporaryDirectory() as folder:
            book, cert = os.path.join(folder, "book"), os.path.join(folder, "cert")
            pathlib.Path(book).write_bytes(sample["book"])
            subprocess.run([CCA, "price", book, cert], check=True, capture_output=True)
            sample["cert"] = pathlib.Path(cert).read_bytes()
        sample["slots"], sample["edits"] = read("band.slots"), read("day-cramton.edits")
        sample["pcert"] = placement_cert(os.path.join(EXAMPLES, "band.slots"))
    return samples


def placement_cert(slots: str) -> bytes:
    with tempfile.TemporaryDirectory() as folder:
        cert = os.path.join(folder, "cert")
        subprocess.run([CCA, "place", slots, cert], check=True, capture_output=True)
        with open(cert, "rb") as f:
            return f.read()


def lines_changed(rng: random.Random, text: bytes) -> bytes:
    lines = text.splitlines(keepends=True) or [b"\n"]
    i, j = rng.randrange(len(lines)), rng.randrange(len(lines))
    match rng.randrange(4):
        case 0:
            del lines[i]
        case 1:
            lines.insert(i, lines[j])
        case 2:
            lines[i], lines[j] = lines[j], lines[i]
        case _:
            lines[i:i] = [lines[j]] * rng.choice((2, 20, 700))
    return b"".join(lines)


def number_changed(rng: random.Random, text: bytes) -> bytes:
    found = list(re.finditer(rb"\d+", text))
    if not found:
        return text + rng.choice(NUMBERS)
    at = rng.choice(found)
    new = rng.choice(NUMBERS) if rng.random() < 0.6 else str(max(0, int(at[0][:30]) + rng.randrange(-3, 4))).encode()
    return text[: at.start()] + new + text[at.end() :]


def changed(rng: random.Random, text: bytes, other: bytes) -> bytes:
    """The text with one change."""
    i, j = sorted((rng.randrange(len(text) + 1), rng.randrange(len(text) + 1)))
    match rng.randrange(7):
        case 0:
            return text[:i] + bytes([rng.randrange(256)]) + text[i + 1 :]
        case 1:
            return text[:i] + text[j:]
        case 2:
            return text[:i]
        case 3:
            return text[:i] + other[: rng.randrange(len(other) + 1)] + text[j:]
        case 4:
            return lines_changed(rng, text)
        case _:
            return number_changed(rng, text)


def limited(memory: int | None, size: int | None) -> Callable[[], None]:
    """What a run begins with: a limit of memory and one of file size, both in bytes, each perhaps none."""

    def begin() -> None:
        signal.signal(signal.SIGXFSZ, signal.SIG_IGN)
        for which, most in ((resource.RLIMIT_AS, memory), (resource.RLIMIT_FSIZE, size)):
            if most is not None:
                resource.setrlimit(which, (most, most))

    return begin


def run(
    words: Sequence[str], memory: int | None = None, size: int | None = None, full: bool = False
) -> tuple[int, bytes]:
    with open("/dev/full" if full else os.devnull, "wb") as nowhere:
        made = subprocess.run(
            [CCA, *words],
            stdin=subprocess.DEVNULL,
            stdout=nowhere if full else subprocess.PIPE,
            stderr=subprocess.PIPE,
            timeout=SECONDS,
            preexec_fn=limited(memory, size),
            restore_signals=False,
        )
    assert made.stderr == b"", made.stderr
    return made.returncode, made.stdout or b""


def read_files(names: Iterable[str]) -> dict[str, bytes]:
    kept = {}
    for name in names:
        if os.path.exists(name):
            with open(name, "rb") as f:
                kept[name] = f.read()
    return kept


def one(rng: random.Random, samples: Sequence[Mapping[str, bytes]], folder: str) -> tuple[str, int]:
    """Draws a run and tests how it ended; returns the command and the status."""
    command, inputs, output, flags = rng.choice(COMMANDS)
    sample = rng.choice(samples)
    texts: dict[str, bytes | None] = {kind: sample[kind] for kind in inputs}
    for _ in range(rng.choice((0, 1, 1, 1, 2))):
        kind = rng.choice(inputs)
        texts[kind] = changed(rng, texts[kind] or b"", rng.choice(samples)[rng.choice(inputs)])
    if output:
        texts[output] = rng.choice((None, b"", b"kept\n"))
    words = [command]
    for kind in (*inputs, *([output] if output else [])):
        path = os.path.join(folder, kind)
        words.append(path)
        if os.path.exists(path):
            os.remove(path)
        text = texts[kind]
        if text is not None:
            with open(path, "wb") as f:
                f.write(text)
    words += rng.sample(flags, rng.randrange(len(flags) + 1))
    memory = rng.choice((None, None, None, 2**23, 2**24, 2**26, 2**28))
    size = rng.choice((None, None, None, 0, 3, 100, 2000))
    full = rng.random() < 0.1
    before = read_files(words[1:])
    code, printed = run(words, memory, size, full)
    after = read_files(words[1:])
    told = (words, code, printed[-200:], memory, size, full)
    assert code in STATUSES and code != 2, told
    assert code != 6 or memory is not None, told
    if code in LINES and not full:
        assert re.fullmatch(LINES[code], printed.splitlines()[-1]), told
    target = words[1 + len(inputs)] if output else None
    for path in words[1:]:
        if path != target and path in before:
            assert after[path] == before[path], told
    if target:
        old, new = before.get(target, b""), after.get(target, b"")
        assert new.startswith(old), told
        if code in (0, 5):
            if os.path.exists(target):
                os.remove(target)
            whole_code, _ = run(words)
            whole = read_files([target]).get(target, b"")
            assert whole_code == 0 or code == 5 and new == old, told
            assert new[len(old) :] == whole if code == 0 else whole.startswith(new[len(old) :]), told
        else:
            assert new == old, told
    return command, code


def main(number: int, seed: int) -> int:
    build_cca()
    rng = random.Random(seed)
    counts: collections.Counter[tuple[str, int]] = collections.Counter()
    samples = originals()
    with tempfile.TemporaryDirectory() as folder:
        for _ in range(number):
            counts[one(rng, samples, folder)] += 1
    print(f"{'command':<10}" + "".join(f"{word:>9}" for word in STATUSES.values()))
    for command, *_ in COMMANDS:
        print(f"{command:<10}" + "".join(f"{counts[command, code]:>9}" for code in STATUSES))
    print(f"{number} runs, seed {seed}: all ended as they have to")
    edge_cases.run_all()
    return 0
