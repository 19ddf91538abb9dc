"""Winner determinations as integer programs, for the general solvers that are installed."""

from __future__ import annotations

import os
import re
import shutil
from collections.abc import Iterable, Mapping, Sequence
from fractions import Fraction
from typing import TypeAlias

from bench.pricings import Wanted
from checks.cases.limit_books import OUT, RESERVE, SUPPLY, Bid, Package, timed

# A book has the bids of each bidder. Surpluses are by bidder. A term is a variable with its worth, its bidder and its
# package.
Book: TypeAlias = Sequence[Sequence[Bid]]
Surplus: TypeAlias = Mapping[int, Fraction | int]
Term: TypeAlias = tuple[str, float, int, Package]
SOLVERS = tuple(solver for solver in ("cbc", "glpsol") if shutil.which(solver))


def terms_of(book: Book, surplus: Surplus, skip: int | None) -> tuple[list[Term], float]:
    """The worth of each bid less its bidder's surplus, without one bidder, and the idle worths, which are a
    constant."""
    terms: list[Term] = []
    idle = 0.0
    for j, bids in enumerate(book):
        own = float(surplus.get(j, 0))
        rest = max(0.0, -own)
        idle += rest
        if j == skip:
            continue
        for i, (p, amount) in enumerate(bids):
            worth = amount - sum(n * r for n, r in zip(p, RESERVE)) - own - rest
            if worth > 0:
                terms.append((f"x{j}_{i}", worth, j, p))
    return terms, idle


def write_program(terms: Sequence[Term]) -> str:
    name = os.path.join(OUT, "solver.lp")
    with open(name, "w") as f:
        f.write("Maximize\n value: " + "\n + ".join(f"{w:.9f} {x}" for x, w, _, _ in terms) + "\nSubject To\n")
        for j in sorted({j for _, _, j, _ in terms}):
            f.write(f" one{j}: " + "\n + ".join(x for x, _, k, _ in terms if k == j) + " <= 1\n")
        for c, s in enumerate(SUPPLY):
            f.write(f" lots{c}: " + "\n + ".join(f"{p[c]} {x}" for x, _, _, p in terms if p[c]) + f" <= {s}\n")
        f.write("Binary\n" + "\n".join(x for x, _, _, _ in terms) + "\nEnd\n")
    return name


def optimum(solver: str, program: str, seconds: int) -> tuple[float, float | None]:
    """The CPU time in milliseconds, and the optimum, or None if the solver was cut off after this many seconds."""
    answer = os.path.join(OUT, "solver.answer")
    if os.path.exists(answer):
        os.remove(answer)
    if solver == "cbc":
        words = ["cbc", program, "sec", str(seconds), "ratio", "0", "allow", "1e-9", "solve", "solution", answer]
        proved, value = r"^Optimal", r"objective value\s+(\S+)"
    else:
        words = ["glpsol", "--lp", program, "--tmlim", str(seconds), "-o", answer]
        proved, value = r"INTEGER OPTIMAL", r"Objective:.*=\s*(\S+)"
    spent, _ = timed(words, may_fail=True)
    if not os.path.exists(answer):
        return spent, None
    with open(answer) as f:
        text = f.read()
    found = re.search(value, text)
    return spent, abs(float(found[1])) if found and re.search(proved, text, re.M) else None


def beside(solver: str, book: Book, wanted: Iterable[Wanted], seconds: int) -> tuple[float, bool, bool]:
    """The CPU time for these winner determinations, each with its surpluses, the bidder that is left out and the
    greatest sum that cca states; whether each was solved to its end, and whether all that were have that sum."""
    spent, whole, same = 0.0, True, True
    for surplus, skip, most in wanted:
        terms, idle = terms_of(book, surplus, skip)
        once, value = optimum(solver, write_program(terms), seconds)
        spent += once
        whole = whole and value is not None
        same = same and (value is None or abs(value + idle - float(most)) <= 1e-6 * max(1.0, float(most)))
    return spent, whole, same


def told(solver: str, ours: float, spent: float, whole: bool, same: bool) -> str:
    """A line that compares a solver with cca: how many times as long it took, or at least this many if it was cut
    off."""
    least = "" if whole else "at least "
    return f"  {solver:<7}{least}{spent:,.0f} ms, {least}{spent / ours:,.0f} times as long; same optima: {same}"
