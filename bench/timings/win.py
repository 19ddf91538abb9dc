"""Times `cca win` on books at the limits, next to a plain Rust program with the best loop known and general solvers.

It uses the books of `price`, and two kinds whose bids nearly all matter. It prints the least CPU time of the runs in
milliseconds, less the time of a start on the smallest book, and whether both programs print the same. The solvers cbc
and glpsol, if they are installed, get the same winner determination as an integer program, for at most this many
seconds. It needs rustc and python3.
"""

from __future__ import annotations

import os
from collections.abc import Sequence

from checks.cases.limit_books import CCA, DENSE_KINDS, KINDS, OUT, build_cca, build_plain, priced_book, timed
from bench.solvers import SOLVERS, beside, told


def least_cpu(words: Sequence[str], runs: int) -> tuple[float, str]:
    found = [timed(words) for _ in range(runs)]
    return min(spent for spent, _ in found), found[-1][1]


def main(runs: int, seconds: int) -> None:
    build_cca()
    plain = build_plain()
    tiny = os.path.join(OUT, "tiny.book")
    with open(tiny, "w") as f:
        f.write("book 1\nsupply 1\nreserve 0\nend\n")
    start = {p: least_cpu([p, "win", tiny], runs)[0] for p in (CCA, plain)}
    print(f"{'book':<9}{'cca':>9}{'plain':>9}{'factor':>8}  same")
    for kind in KINDS + DENSE_KINDS:
        name, book = priced_book(kind)
        ours, our_text = least_cpu([CCA, "win", name], runs)
        theirs, their_text = least_cpu([plain, "win", name], runs)
        ours, theirs = ours - start[CCA], theirs - start[plain]
        print(f"{kind:<9}{ours:>7.1f}ms{theirs:>7.1f}ms{ours / max(theirs, 0.001):>8.2f}  {our_text == their_text}")
        net = int(our_text.split()[-1])
        for solver in SOLVERS:
            print(told(solver, ours, *beside(solver, book, [({}, None, net)], seconds)), flush=True)
