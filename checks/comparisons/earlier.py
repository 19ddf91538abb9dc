"""Compares the program with an earlier one, which CCA_EARLIER names: what they print, their statuses, and the bytes of
the files that they leave.

Each command runs on each sample: with all of its options, without a file, with an argument more or less, and on an
output that isn't empty. Then come NUMBER runs on drawn files: samples with changed bytes, lines and numbers, drawn by
`files`, and books, slots and auctions with right and altered certificates, drawn by `court`. It prints how many runs of
each command ended with each status, and each run that differs, whose files are kept in checks/out. The status is 1 if
something differs.
"""

from __future__ import annotations

import collections
import itertools
import os
import pathlib
import random
import subprocess
import sys
import tempfile
from collections.abc import Iterator, Mapping
from typing import NamedTuple

from checks.cases.court_cases import cases
from checks.cases.limit_books import CCA, OUT, build_cca
from checks.cases.voices import FILES
from checks.comparisons.files import COMMANDS, STATUSES, changed, originals

Files = Mapping[str, bytes]  # by their names in the folder of a run


class Command(NamedTuple):
    """A command with the files that it reads, the one that it appends to, and its options."""

    name: str
    inputs: tuple[str, ...]
    output: str | None
    options: tuple[str, ...]

    def words(self) -> tuple[str, ...]:
        """Its arguments without options."""
        return (self.name, *self.inputs, *([self.output] if self.output else []))


class Run(NamedTuple):
    """The arguments of the program, and the files of its folder."""

    words: tuple[str, ...]
    files: Files


class Ended(NamedTuple):
    """What a run printed on both streams, its status, and all files of its folder after it."""

    printed: bytes
    faults: bytes
    status: int
    files: Files


TABLE = tuple(Command(*row) for row in COMMANDS)


def ended(program: str, run: Run) -> Ended:
    """How a program ends in a folder with only these files."""
    with tempfile.TemporaryDirectory() as name:
        folder = pathlib.Path(name)
        for kind, text in run.files.items():
            (folder / kind).write_bytes(text)
        done = subprocess.run([program, *run.words], cwd=folder, stdin=subprocess.DEVNULL, capture_output=True)
        files = {path.name: path.read_bytes() for path in sorted(folder.iterdir())}
    return Ended(done.stdout, done.stderr, done.returncode, files)


def wrong_runs(command: Command, files: Files) -> Iterator[Run]:
    """Runs with an argument more or less, or without one of the files."""
    words = command.words()
    for wrong in (words[:1], words[:-1], (*words, "more"), (*words, "--more"), (*words[:-1], "")):
        yield Run(wrong, files)
    for kind in command.inputs:
        yield Run(words, {other: text for other, text in files.items() if other != kind})


def sample_runs(samples: list[dict[str, bytes]]) -> Iterator[Run]:
    """Each command on each sample."""
    for sample, command in itertools.product(samples, TABLE):
        words, files = command.words(), {kind: sample[kind] for kind in command.inputs}
        for count in range(len(command.options) + 1):
            yield from (Run((*words, *some), files) for some in itertools.permutations(command.options, count))
        if command.output:
            yield Run(words, {**files, command.output: b"kept\n"})
        yield from wrong_runs(command, files)


def changed_runs(rng: random.Random, samples: list[dict[str, bytes]]) -> Iterator[Run]:
    """Commands on samples with up to three changes, without end."""
    while True:
        command, sample = rng.choice(TABLE), rng.choice(samples)
        files = {kind: sample[kind] for kind in command.inputs}
        for _ in range(rng.choice((1, 1, 2, 3))):
            kind = rng.choice(command.inputs)
            files[kind] = changed(rng, files[kind], rng.choice(samples)[rng.choice(command.inputs)])
        yield Run((*command.words(), *some_of(rng, command.options)), files)


def drawn_runs(rng: random.Random) -> Iterator[Run]:
    """Tests of drawn certificates, each followed by another command that reads some of the same files, without end."""
    for name, texts in cases(rng):
        files = dict(zip(FILES[name], texts, strict=True))
        yield Run((name, *files), files)
        command = rng.choice([one for one in TABLE if {*one.inputs} <= {*files}])
        given = {kind: files[kind] for kind in command.inputs}
        yield Run((*command.words(), *some_of(rng, command.options)), given)


def some_of(rng: random.Random, options: tuple[str, ...]) -> list[str]:
    return rng.sample(options, rng.randint(0, len(options)))


def all_runs(rng: random.Random, number: int) -> Iterator[Run]:
    """All runs of a comparison."""
    samples = originals()
    yield from sample_runs(samples)
    drawn = zip(changed_runs(rng, samples), drawn_runs(rng), strict=False)
    yield from itertools.islice(itertools.chain.from_iterable(drawn), number)


def keep(number: int, run: Run, before: Ended, now: Ended) -> None:
    """Keeps the files of a run that differs, and prints how it does."""
    for name, text in run.files.items():
        pathlib.Path(OUT, f"differs-{number}.{name}").write_bytes(text)
    print(f"{number}: {' '.join(run.words)}", flush=True)
    for what, one in ("before", before), ("now", now):
        files = {name: len(text) for name, text in one.files.items() if name not in run.files}
        print(f"  {what} {one.status} {one.printed[-300:]!r} {one.faults[-300:]!r} {files}", flush=True)


def main(number: int, seed: int) -> int:
    """Compares the runs, and prints the counts."""
    earlier = os.environ.get("CCA_EARLIER")
    if not earlier:
        sys.exit("checks/compare earlier: CCA_EARLIER has to name the earlier program")
    build_cca()
    counts, differ = collections.Counter[tuple[str, int]](), 0
    for run in all_runs(random.Random(str(seed)), number):
        before, now = ended(os.path.abspath(earlier), run), ended(os.path.abspath(CCA), run)
        counts[run.words[0], now.status] += 1
        if before != now:
            differ += 1
            keep(differ, run, before, now)
    print(f"{'command':<12}" + "".join(f"{word:>9}" for word in STATUSES.values()))
    for command in TABLE:
        print(f"{command.name:<12}" + "".join(f"{counts[command.name, status]:>9}" for status in STATUSES))
    print(f"{counts.total()} runs, {differ} differ")
    return 1 if differ else 0
