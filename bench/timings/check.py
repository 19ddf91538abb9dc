"""Times `cca win`, `cca price` and `cca check` on books at the limits, next to a plain Rust program and general
solvers.

It uses the books of `price`. It prints the median of the CPU times of whole runs in milliseconds, and whether both
programs print the same, and how much memory `cca win` and `cca check` keep: the book is the same, so what `check` keeps
beyond `win` is what it needs for the certificate. The plain program has the best loops known. Then some certificates
are broken in one number, and both checkers have to reach the same verdict. The solvers cbc and glpsol, if they are
installed, solve again all winner determinations that the certificate shows, each for at most this many seconds: this
work is needed without a certificate. It needs rustc and python3.
"""

from __future__ import annotations

import os
import random
import statistics
from collections.abc import Iterable, Sequence
from typing import TypeAlias

from checks.cases.damage import broken
from checks.cases.limit_books import CCA, KINDS, OUT, build_cca, build_plain, memory_of, price, priced_book, read, timed
from bench.pricings import wanted_of
from bench.solvers import SOLVERS, beside, told

# The CPU time of each run, and what it printed.
Runs: TypeAlias = Sequence[tuple[float, str]]
BREAKS = 20
SIGNED_LINES = ("den", "value", "t", "pay", "mult")


def first_line(words: Sequence[str]) -> str:
    """The first line that a run prints."""
    return timed(words, may_fail=True)[1].split("\n")[0]


def median(runs: Iterable[tuple[float, str]]) -> float:
    return statistics.median(spent for spent, _ in runs)


def tell(word: str, ours: Runs, theirs: Runs, same: bool) -> None:
    """Prints a line on the runs of a command by both programs."""
    own, plain = median(ours), median(theirs)
    print(f"  {word:<7}{own:>8.1f} ms{plain:>8.1f} ms{own / plain:>7.2f}  {same}")


def broken_verdicts(kind: str, book: str, cert: str, plain: str) -> tuple[int, int]:
    """How many broken certificates both checkers judge, and for how many of these their answers differ."""
    rng, text, name = random.Random(kind), read(cert), os.path.join(OUT, "broken.cert")
    judged, differ = 0, 0
    for _ in range(BREAKS):
        with open(name, "w") as f:
            f.write(broken(rng, text, SIGNED_LINES))
        said = first_line([CCA, "check", book, name])
        if not said.startswith("cca:"):
            judged += 1
            differ += said != first_line([plain, "check", book, name])
    return judged, differ


def compare(kind: str, plain: str, runs: int, seconds: int) -> None:
    cert, plain_cert = (os.path.join(OUT, name) for name in ("check.cert", "plain.cert"))
    book, bids = priced_book(kind)
    ours = {"win": [timed([CCA, "win", book]) for _ in range(runs)]}
    ours["price"] = [price(book, cert, "--rounds") for _ in range(runs)]
    ours["check"] = [timed([CCA, "check", book, cert]) for _ in range(runs)]
    printed = ours["price"][0][1]
    theirs = {
        word: [timed([plain, word, book, *[cert] * (word == "check")]) for _ in range(runs)]
        for word in ("win", "check")
    }
    theirs["price"] = [price(book, plain_cert, "--rounds", program=plain) for _ in range(runs)]
    same = {"win": ours["win"][0][1] == theirs["win"][0][1], "price": read(cert) == read(plain_cert)}
    same["check"] = (
        ours["check"][0][1] == "yes\n" + printed[printed.index("winner ") :]
        and theirs["check"][0][1] == ours["check"][0][1]
    )
    winners, turns = printed.count("winner "), printed.count("round ")
    print(f"{kind}: {winners} winners, {turns} turns, {os.path.getsize(cert):,} bytes of certificate")
    print(f"  {'':<7}{'cca':>11}{'plain':>11}{'factor':>7}  same")
    for word in ("win", "price", "check"):
        tell(word, ours[word], theirs[word], same[word])
    print(f"  win keeps {memory_of([CCA, 'win', book]):.1f} MB, check {memory_of([CCA, 'check', book, cert]):.1f} MB")
    judged, differ = broken_verdicts(kind, book, cert, plain)
    print(f"  {judged} broken certificates, {differ} verdicts differ", flush=True)
    for solver in SOLVERS:
        print(told(solver, median(ours["check"]), *beside(solver, bids, wanted_of(printed), seconds)), flush=True)


def main(runs: int, seconds: int) -> None:
    build_cca()
    plain = build_plain()
    for kind in KINDS:
        compare(kind, plain, runs, seconds)
