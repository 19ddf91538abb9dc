"""Times `cca price` on books at the limits, next to a plain Rust program with the best loops known and general solvers.

Each book has 16 bidders with 600 bids each over 15,876 states, and at most six winners; each run of cca writes a fresh
certificate. The solvers cbc and glpsol, if they are installed, get the same winner determinations, each as an integer
program, for at most this many seconds: one with all bidders, one without each winner, and one with lowered bids for the
point of each turn. The nearest point is left out on their side. It prints the CPU time in milliseconds, the least of
the runs, whether both certificates are the same, and whether each optimum is the one that cca states. It needs rustc
and python3.
"""

from __future__ import annotations

import os

from checks.cases.limit_books import KINDS, OUT, build_cca, build_plain, price, priced_book, read
from bench.pricings import wanted_of
from bench.solvers import SOLVERS, beside, told


def main(runs: int, seconds: int) -> None:
    build_cca()
    plain = build_plain()
    cert, plain_cert = (os.path.join(OUT, name) for name in ("price.cert", "plain.cert"))
    print(f"{'book':<8}{'cca':>9}{'plain':>9}{'factor':>8}  same")
    for kind in KINDS:
        name, book = priced_book(kind)
        found = [price(name, cert, "--rounds") for _ in range(runs)]
        ours = min(spent for spent, _ in found)
        theirs = min(price(name, plain_cert, "--rounds", program=plain)[0] for _ in range(runs))
        print(
            f"{kind:<8}{ours:>7.1f}ms{theirs:>7.1f}ms{ours / theirs:>8.2f}  {read(cert) == read(plain_cert)}",
            flush=True,
        )
        wanted = wanted_of(found[0][1])
        for solver in SOLVERS:
            print(told(solver, ours, *beside(solver, book, wanted, seconds)), flush=True)
