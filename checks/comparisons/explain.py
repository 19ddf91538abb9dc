"""Compares the first line of tools/explain, and its status, with the program's, on damaged files of each
command.

NUMBER runs are made on the samples, each with some of its files damaged. It prints how many differ, and how often each
status of each command came.
"""

from __future__ import annotations

import collections
import os
import random
import subprocess
from collections.abc import Sequence

from checks.cases.drawn_auctions import damaged
from checks.cases.limit_books import CCA, HERE, OUT, build_cca
from checks.cases.second_tools import answer

EXAMPLES = os.path.join(HERE, "..", "examples")
SIGNS = '0123456789 \n-abcdefghijklmnop_.,"'
WRITES = ("auction", "award", "price", "weigh", "place")


def sample(name: str) -> str:
    with open(os.path.join(EXAMPLES, name)) as file:
        return file.read()


def winners(count: int, others: int) -> tuple[str, str]:
    """A book where this many bidders win, and weights: 1 for all except the last few."""
    book = "".join(f"bidder b{j}\nbid 1 5\n" for j in range(count))
    weights = "".join(f"weight b{j} {1 if j < count - others else 2}\n" for j in range(count))
    return f"book 1\nsupply 11\nreserve 0\n{book}end\n", f"weights 1\n{weights}end\n"


def written(command: str, *texts: str) -> str:
    """The certificate that a command writes."""
    names, cert = [path_of(f"given.{at}", text) for at, text in enumerate(texts)], path_of("given.cert")
    subprocess.run([CCA, command, *names, cert], check=True, capture_output=True)
    with open(cert) as file:
        return file.read()


def path_of(name: str, text: str | None = None) -> str:
    path = os.path.join(OUT, f"explained.{name}")
    if text is not None:
        with open(path, "w", newline="") as file:
            file.write(text)
    elif os.path.exists(path):
        os.remove(path)
    return path


def samples() -> dict[str, list[tuple[str, ...]]]:
    """For each command the lists of texts of the files that it reads."""
    book, weights, slots = sample("day-cramton.book"), sample("day-cramton.weights"), sample("band.slots")
    auction, small = (sample("spectrum.award"), sample("spectrum.log")), [winners(7, 0), winners(5, 2), winners(5, 0)]
    return {
        "auction": [auction],
        "award": [auction],
        "audit": [(*auction, written("award", *auction))],
        "win": [(book,), (sample("tie.book"),)],
        "price": [(book,), *((one,) for one, _ in small)],
        "check": [(book, sample("day-cramton.cert"))],
        "weigh": [(book, weights), *small],
        "weigh-check": [(book, weights, written("weigh", book, weights))],
        "place": [(slots,)],
        "place-check": [(slots, written("place", slots))],
        "review": [(book, sample("day-cramton.edits"))],
    }


def told(*words: str) -> tuple[str, int]:
    return answer("explain", words)


def is_same(command: str, names: Sequence[str]) -> tuple[bool, int]:
    """Whether the status is the same, and a line that ends the program's run is among those that are shown, and the
    status."""
    out = [path_of("out")] if command in WRITES else []
    run = subprocess.run([CCA, command, *names, *out], capture_output=True, text=True)
    text, status = told(command, *names)
    last = run.stdout.splitlines()[-1] if run.returncode else text.splitlines()[0]
    return run.returncode == status and last in text.splitlines(), run.returncode


def main(number: int, seed: int) -> int:
    build_cca()
    os.makedirs(OUT, exist_ok=True)
    rng, given, differ = random.Random(seed), samples(), 0
    statuses: collections.Counter[str] = collections.Counter()
    for _ in range(number):
        command = rng.choice(list(given))
        texts = [text if rng.random() < 0.4 else damaged(rng, text, SIGNS) for text in rng.choice(given[command])]
        names = [path_of(str(at), text) for at, text in enumerate(texts)]
        same, status = is_same(command, names)
        statuses[f"{command} {status}"] += 1
        if not same:
            differ += 1
            print(command, *(path_of(f"differs-{differ}.{at}", text) for at, text in enumerate(texts)))
    print(f"{number} runs, {differ} differ")
    print(", ".join(f"{word}: {count}" for word, count in sorted(statuses.items())))
    return 1 if differ else 0
