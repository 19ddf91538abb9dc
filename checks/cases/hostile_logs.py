"""Logs of 100,000 records: an ordinary one, and the ones that cost most of those found."""

from __future__ import annotations

import itertools
from collections.abc import Callable, Iterator
from typing import TypeAlias

# A package of two categories, and what was bid for packages.
Pair: TypeAlias = tuple[int, int]
Amounts: TypeAlias = list[tuple[Pair, int]]
RECORDS, ROUNDS, DRAFTS = 100_000, 300, 300
SUPPLY, POINTS = (20, 19), (20, 1)
BIDDERS = 16
MOST = sum(s * p for s, p in zip(SUPPLY, POINTS))


def award() -> str:
    """Two categories with 420 packages whose points all differ, prices that rise by one in each round, 16 bidders."""
    lines = ["version = 2", "tick = 1"]
    for name, supply, points in zip("ab", SUPPLY, POINTS):
        lines += ["[[category]]", f'name = "{name}"', f"supply = {supply}", f"points = {points}", "reserve = 1000"]
    for j in range(1, BIDDERS + 1):
        lines += ["[[bidder]]", f'name = "b{j}"', f"eligibility = {MOST}"]
    return "\n".join(lines + ["[[step]]", "excess = 1", "permille = 1"]) + "\n"


def package_of(points: int) -> Pair:
    return divmod(points, POINTS[0])


def line(kind: str, j: int, package: Pair, amount: int | str = "") -> str:
    return f"{kind},b{j},{package[0]} {package[1]},{amount}"


class Clock:
    """300 rounds: bidder 1 falls by one point a round while bidder 2 asks for all; then the final round."""

    def __init__(self) -> None:
        self.lines: list[str] = []
        self.prices: list[tuple[Pair, tuple[int, ...]]] = []
        prices = [1000, 1000]
        for r in range(1, ROUNDS):
            held = package_of(MOST - r)
            self.lines += [line("bid", 1, held), line("bid", 2, SUPPLY), "close,,,"]
            self.prices.append((held, tuple(prices)))
            prices = [p + max(1, -(-p // 1000)) if h else p for p, h in zip(prices, held)]
        self.lines += [line("bid", 1, package_of(MOST - ROUNDS)), "close,,,"]

    def amounts(self) -> list[tuple[Pair, int]]:
        """What bidder 1 bid for its packages, the largest package first."""
        return [(held, sum(n * p for n, p in zip(held, prices))) for held, prices in self.prices]


def ordinary() -> list[str]:
    """16 bidders that bid in each of 300 rounds and then draft, drop and submit in turn."""
    lines = []
    for r in range(1, ROUNDS):
        lines += [line("bid", j, (20, 19) if j < 3 else (r % 21, j)) for j in range(1, BIDDERS + 1)] + ["close,,,"]
    lines += ["close,,,"]
    packages = [p for p in itertools.product(range(21), range(20)) if any(p)]
    for n in itertools.count():
        j, p = n % BIDDERS + 1, packages[n // BIDDERS % len(packages)]
        lines.append(line("draft", j, p, 2_000_000 + n % 7))
        if n % 40 == 39:
            lines.append(line("drop", j, p))
            lines.append(f"submit,b{j},,")
        if len(lines) > RECORDS:
            break
    return lines


def behind_the_clock(more: Callable[[Amounts], Iterator[str]]) -> list[str]:
    clock = Clock()
    lines = clock.lines + [line("draft", 1, p, a) for p, a in clock.amounts()]
    return lines + list(itertools.islice(more(clock.amounts()), RECORDS - len(lines)))


def submits(amounts: Amounts) -> Iterator[str]:
    while True:
        yield "submit,b1,,"


def drafts_and_submits(amounts: Amounts) -> Iterator[str]:
    package, amount = amounts[150]
    for n in itertools.count():
        yield line("draft", 1, package, amount + n % 2)
        yield "submit,b1,,"


def drafts_and_drops(amounts: Amounts) -> Iterator[str]:
    package, amount = amounts[-1]
    while True:
        yield line("drop", 1, package)
        yield line("draft", 1, package, amount)


def low_drafts(amounts: Amounts) -> Iterator[str]:
    package, amount = amounts[0]
    while True:
        yield line("draft", 1, package, amount - 1)


def bids() -> list[str]:
    return [line("bid", 1 + n % BIDDERS, package_of(MOST - n % 400)) for n in range(RECORDS)]


LOGS: dict[str, Callable[[], list[str]]] = {
    "ordinary": ordinary,
    "bids": bids,
    "submits": lambda: behind_the_clock(submits),
    "drafts and submits": lambda: behind_the_clock(drafts_and_submits),
    "drafts and drops": lambda: behind_the_clock(drafts_and_drops),
    "low drafts": lambda: behind_the_clock(low_drafts),
}


def text_of(kind: str) -> str:
    return "\n".join(LOGS[kind]()[:RECORDS]) + "\n"
