"""Books at the limits, the programs that read them, and their CPU time."""

from __future__ import annotations

import itertools
import os
import random
import resource
import subprocess
from collections.abc import Sequence
from typing import TypeAlias

# How many lots of each category, and a package with a gross amount.
Package: TypeAlias = tuple[int, ...]
Bid: TypeAlias = tuple[Package, int]
HERE = os.path.dirname(os.path.dirname(os.path.realpath(__file__)))
OUT = os.path.join(HERE, "out")
CCA = os.environ.get("CCA_PROGRAM") or os.path.join(HERE, "..", "crates", "cca", "out", "cca.built")
BIDDERS, SUPPLY, RESERVE = 16, (6, 8, 8, 13, 1), (1000, 1500, 100, 10, 400)
KINDS = ("small", "random", "halves")
# Kinds whose bids nearly all matter, so that tables take longest: worths that grow with the package. `dense` has
# synergies and the
# smallest packages, which fit most places; `additive` has none, and random packages.
DENSE_KINDS = ("dense", "additive")


def build_cca() -> None:
    """Has ./cca prove and build the program, if CCA_PROGRAM names none."""
    os.makedirs(OUT, exist_ok=True)
    if os.environ.get("CCA_PROGRAM"):
        return
    tie = os.path.join(HERE, "..", "examples", "tie.book")
    subprocess.run([os.path.join(HERE, "..", "cca"), "win", tie], check=True, capture_output=True)


def build_plain() -> str:
    """The plain Rust program in bench/plain. It has the commands `win`, `price` and `check` of cca, and as cca it runs
    on any processor: the vector code that it could choose at run time is left out."""
    os.makedirs(OUT, exist_ok=True)
    os.environ["PLAIN_OFF"] = "simd"
    program, source = os.path.join(OUT, "plain"), os.path.join(HERE, "..", "bench", "plain", "main.rs")
    flags = ["opt-level=3", "codegen-units=1", "panic=abort", "lto=fat"]
    subprocess.run(
        [
            "rustc",
            "--edition",
            "2021",
            "-A",
            "warnings",
            *(it for flag in flags for it in ("-C", flag)),
            "-o",
            program,
            source,
        ],
        check=True,
    )
    return program


def read(name: str) -> str:
    with open(name) as f:
        return f.read()


def timed(words: Sequence[str], may_fail: bool = False) -> tuple[float, str]:
    """The CPU time of a run in milliseconds, and what it prints."""
    before = resource.getrusage(resource.RUSAGE_CHILDREN)
    text = subprocess.run(words, capture_output=True, check=not may_fail, text=True).stdout
    after = resource.getrusage(resource.RUSAGE_CHILDREN)
    return 1000 * (after.ru_utime + after.ru_stime - before.ru_utime - before.ru_stime), text


def memory_of(words: Sequence[str]) -> float:
    """The most memory that a run keeps at one time, in megabytes."""
    made = os.posix_spawn(
        words[0], list(words), os.environ, file_actions=[(os.POSIX_SPAWN_OPEN, 1, os.devnull, os.O_WRONLY, 0)]
    )
    _, _, spent = os.wait4(made, 0)
    return float(spent.ru_maxrss / 1024)


def price(book: str, cert: str, *flags: str, program: str = CCA) -> tuple[float, str]:
    """The CPU time of `price` with a fresh certificate file, and what it prints."""
    if os.path.exists(cert):
        os.remove(cert)
    return timed([program, "price", book, cert, *flags])


def packages_of(kind: str, rng: random.Random) -> list[Package]:
    # each package has a lot of the first category, so at most six bidders win
    every = [p for p in itertools.product(*(range(s + 1) for s in SUPPLY)) if p[0] > 0]
    if kind in ("small", "dense"):
        return sorted(sorted(every, key=lambda p: (sum(p), p))[:600])
    if kind == "halves":
        every = [p for p in every if p.count(0) >= 2 or all(2 * n <= s for n, s in zip(p, SUPPLY))]
    return sorted(rng.sample(every, 600))


def dense_bids_of(kind: str, rng: random.Random) -> list[Bid]:
    """The bids of a bidder with its own taste for each category: its worths add up, or grow by 2 to 8 percent with each
    further lot."""
    taste = [rng.randrange(3600, 4401) for _ in SUPPLY]
    synergy = rng.randrange(20, 80) if kind == "dense" else 0
    bids = []
    for p in packages_of(kind, rng):
        worth = sum(n * r * t for n, r, t in zip(p, RESERVE, taste)) // 1000
        bids.append((p, worth * (1000 + synergy * (sum(p) - 1)) // 1000 + rng.randrange(1000 if synergy else 1)))
    return bids


def bids_of(kind: str, rng: random.Random) -> list[Bid]:
    if kind in DENSE_KINDS:
        return dense_bids_of(kind, rng)
    bids = []
    for p in packages_of(kind, rng):
        cost = sum(n * r for n, r in zip(p, RESERVE))
        bids.append((p, cost + rng.randrange(cost * 3 + 1)))
    return bids


def priced_book(kind: str) -> tuple[str, list[list[Bid]]]:
    """The name of a book of 16 bidders with 600 bids each over 15,876 states and with at most six winners, and its
    bids.

    The packages are the 600 smallest, random ones, or random ones of at most half the supply or of few categories.
    Worths are drawn, or grow with the package in the dense kinds.
    """
    rng = random.Random(kind)
    book = [bids_of(kind, rng) for _ in range(BIDDERS)]
    lines = ["book 1", "supply " + " ".join(map(str, SUPPLY)), "reserve " + " ".join(map(str, RESERVE))]
    for j, bids in enumerate(book, 1):
        lines.append(f"bidder b{j}")
        lines += ["bid " + " ".join(map(str, p)) + f" {amount}" for p, amount in bids]
    name = os.path.join(OUT, f"price-{kind}.book")
    with open(name, "w") as f:
        f.write("\n".join(lines + ["end"]) + "\n")
    return name, book
