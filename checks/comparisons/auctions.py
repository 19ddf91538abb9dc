"""Compares `cca auction`, `award` and `audit` with the second program in tools/, on random small auctions and on faulty
ones.

NUMBER runs of each kind: drawn auctions, with lines that are refused for each reason and with ends and none; awards
with a rule broken; awards of any TOML and of none; logs with a record that states no line; logs of any CSV; audits of
certificates as they were written and altered, and a few runs with other arguments, the samples, made auctions and logs
of 100,000 records. It compares the printed lines, the exit status and the appended book. It prints how many runs of
each kind differ, and how often each answer came. It keeps what differs in checks/out.
"""

from __future__ import annotations

import collections
import os
import pathlib
import random
import re
import subprocess
import sys
from collections.abc import Mapping

from checks.cases import hostile_logs
from checks.cases.drawn_auctions import broken_award, broken_log, bytes_of, odd_award, odd_log
from checks.cases.limit_books import CCA, HERE, OUT, build_cca
from checks.cases.made_auction import award_text, log_text
from checks.cases.second_auctions import drawn, second_auction
from checks.cases.second_tools import answer

EXAMPLES = os.path.join(HERE, "..", "examples")


def path_of(name: str, data: bytes | None = None) -> str:
    path = os.path.join(OUT, name)
    if data is not None:
        with open(path, "wb") as file:
            file.write(data)
    elif os.path.exists(path):
        os.remove(path)
    return path


def read(path: str) -> bytes | None:
    """The bytes of a file, None if there is none."""
    if not os.path.exists(path):
        return None
    with open(path, "rb") as file:
        return file.read()


def ours(*words: str) -> tuple[str, int]:
    """What the program prints, and its status."""
    run = subprocess.run([CCA, *words], stdin=subprocess.DEVNULL, capture_output=True)
    return run.stdout.decode(), run.returncode


def whole(path: str) -> bytes:
    """The bytes of a file that is there."""
    return pathlib.Path(path).read_bytes()


def second_audit(*names: str) -> tuple[str, int]:
    said, status = answer("audit", names)
    return said + "\n", status


class Tally:
    """How many runs of each kind there were, how many differ, and which answers came."""

    def __init__(self) -> None:
        self.runs: collections.Counter[str] = collections.Counter()
        self.differ: collections.Counter[str] = collections.Counter()
        self.answers: collections.Counter[str] = collections.Counter()

    def add(self, kind: str, is_same: bool, text: str, files: Mapping[str, bytes]) -> None:
        self.runs[kind] += 1
        self.answers.update(answer_of(line) for line in text.splitlines())
        if not is_same:
            self.differ[kind] += 1
            for name, data in files.items():
                path_of(f"differs-{kind.replace(' ', '-')}-{self.differ[kind]}.{name}", data)

    def print(self) -> None:
        for kind, count in self.runs.items():
            print(f"{count} {kind}, {self.differ[kind]} differ")
        print(f"{self.runs.total()} runs, {self.differ.total()} differ")
        print(", ".join(f"{word} {count}" for word, count in sorted(self.answers.items())))


def answer_of(line: str) -> str:
    """The word of a reply, or the first words of a line that ends a run."""
    words = line.split(" ")
    if words[0].isdigit():
        return words[1]
    if words[:2] == ["cca:", "refused"]:
        return " ".join(words[:4] if words[2] == "award" else words[:3])
    return " ".join(words[:2] if words[0] in ("no", "cca:") else words[:1])


def compare_auction(tally: Tally, kind: str, award: bytes, log: bytes) -> tuple[str, str] | None:
    """Compares one run of `auction`; returns the names of the files if a book was written."""
    names = path_of("random.award", award), path_of("random.log", log), path_of("random.book")
    printed, status = ours("auction", *names)
    written = read(names[2])
    is_same = (printed, written, status) == second_auction(names[0], names[1])
    tally.add(kind, is_same, printed, {"award": award, "log": log})
    return (names[0], names[1]) if written else None


def altered(rng: random.Random, cert: bytes) -> bytes:
    """A certificate with a number changed, a line gone or twice, or a byte damaged."""
    lines, kind = cert.splitlines(True), rng.random()
    at = rng.randrange(len(lines))
    if kind < 0.1:
        return b"".join(lines[:at] + lines[at + rng.choice([0, 1]) :] + lines[at : at + 1])
    if kind < 0.2:
        return cert[: rng.randrange(len(cert))]
    own = [n for n, line in enumerate(lines) if rng.random() < 0.3 or not line.startswith(b"t ")]
    at = rng.choice(own or [at])
    numbers = list(re.finditer(rb"-?\d+", lines[at]))
    if not numbers:
        return cert + rng.choice([b"", b"\n", cert])
    found = rng.choice(numbers)
    number = int(found[0]) + rng.choice([-2, -1, 1, 2, 10])
    return (
        b"".join(lines[:at])
        + lines[at][: found.start()]
        + b"%d" % number
        + lines[at][found.end() :]
        + b"".join(lines[at + 1 :])
    )


def compare_audit(tally: Tally, kind: str, files: Mapping[str, bytes]) -> None:
    names = [path_of(f"audited.{name}", data) for name, data in files.items()]
    printed, status = ours("audit", *names)
    tally.add(kind, (printed, status) == second_audit(*names), printed, files)


def compare_audits(rng: random.Random, tally: Tally, names: tuple[str, str]) -> None:
    """Audits of the certificate that `award` writes: unchanged, altered, and with another award or log."""
    cert = path_of("random.cert")
    if ours("award", *names, cert)[1] != 0:
        return
    files = {"award": whole(names[0]), "log": whole(names[1]), "cert": whole(cert)}
    compare_audit(tally, "audits", files)
    for _ in range(2):
        compare_audit(tally, "altered certificates", {**files, "cert": altered(rng, files["cert"])})
    lines = files["log"].splitlines(True)
    del lines[rng.randrange(len(lines))]
    compare_audit(tally, "audits of other logs", {**files, "log": b"".join(lines)})
    old, new = (rb"version = 1", b"version = 2") if rng.random() < 0.3 else (rb"reserve = \d", b"reserve = 1")
    other = re.sub(old, new, files["award"])
    compare_audit(tally, "audits of other awards", {**files, "award": other})


def compare_words(tally: Tally) -> None:
    """The arguments, missing files and long ones."""
    award, log, cert = (os.path.join(EXAMPLES, name) for name in ("spectrum.award", "spectrum.log", "day-cramton.cert"))
    long_award, long_log = path_of("long.award", whole(award) + b"#" * 65_536), path_of("long.log", b"\n" * 8_388_609)
    most = path_of("most.log", b"close,,,\n" * 100_000), path_of("more.log", b"close,,,\n" * 100_000 + b"x")
    longest = path_of("whole.award", whole(award) + b"#" * (65_536 - os.path.getsize(award)))
    rows: list[tuple[str, ...]] = [
        (),
        (award,),
        (award, log),
        (award, log, log),
        (award, award, cert),
        (award, log, ""),
        ("", log, cert),
        (award, log, "-c"),
        (award, "--json", cert),
        (award, log, cert, "--json"),
        (award, log, cert, cert),
        (award, log, cert),
        ("nothing", log, cert),
        (award, "nothing", cert),
        (award, log, "nothing"),
        (EXAMPLES, log, cert),
        (award, EXAMPLES, cert),
        (award, log, EXAMPLES),
        (long_award, log, cert),
        (award, long_log, cert),
        (award, most[0], cert),
        (award, most[1], cert),
        (longest, log, cert),
        (log, award, cert),
        (cert, log, award),
    ]
    program = os.path.join(HERE, "..", "tools", "audit")
    for words in rows:
        printed, status = ours("audit", *words)
        made = subprocess.run([sys.executable, program, *words], stdin=subprocess.DEVNULL, capture_output=True)
        tally.add(
            "words and files",
            (printed, status) == (made.stdout.decode(), made.returncode),
            printed,
            {"words": repr(words).encode()},
        )


def compare_samples(rng: random.Random, tally: Tally) -> None:
    """The samples, and two made auctions."""
    files = [(whole(os.path.join(EXAMPLES, "spectrum.award")), whole(os.path.join(EXAMPLES, "spectrum.log")))]
    files += [(award_text().encode(), log_text(number).encode()) for number in (0, 4294967295)]
    for award, log in files:
        names = compare_auction(tally, "samples and made auctions", award, log)
        if names is None:
            raise ValueError("a sample has no book")
        compare_audits(rng, tally, names)


def compare_long_logs(tally: Tally) -> None:
    """Logs of 100,000 records, ordinary and hostile ones."""
    for kind in hostile_logs.LOGS:
        compare_auction(tally, "long logs", hostile_logs.award().encode(), hostile_logs.text_of(kind).encode())


def main(number: int, seed: int) -> int:
    build_cca()
    os.makedirs(OUT, exist_ok=True)
    rng, tally = random.Random(seed), Tally()
    compare_words(tally)
    compare_samples(rng, tally)
    compare_long_logs(tally)
    for _ in range(number):
        award, log, categories = drawn(rng)
        names = compare_auction(tally, "drawn auctions", award.encode(), log.encode())
        if names:
            compare_audits(rng, tally, names)
        compare_auction(tally, "awards with a rule broken", bytes_of(rng, broken_award(rng)), log.encode())
        compare_auction(tally, "awards of any TOML", bytes_of(rng, odd_award(rng)), log.encode())
        compare_auction(
            tally, "logs with a faulty record", award.encode(), bytes_of(rng, broken_log(rng, log, categories))
        )
        compare_auction(tally, "logs of any CSV", award.encode(), bytes_of(rng, odd_log(rng, log)))
    tally.print()
    return 1 if tally.differ else 0
