"""The auction of a number, only by the rules of the generator."""

from __future__ import annotations

from collections.abc import Iterator, Sequence
from typing import TypeAlias

# How many lots of each category.
Package: TypeAlias = tuple[int, ...]
NAMES, SUPPLY, POINTS, RESERVES = "abce", (4, 1, 14, 9), (10, 10, 1, 1), (1000, 1500, 100, 10)
STEPS = ((1, 100), (5, 200))
BIDDERS, FULL_ROUNDS, STAYING, DRAFTS = 12, 9, 4, 100


class Draws:
    """The generator's numbers."""

    def __init__(self, number: int) -> None:
        self.state = number % 2**31

    def draw(self, bound: int) -> int:
        """A number below the bound."""
        self.state = (1103515245 * self.state + 12345) % 2**31
        return self.state // 65536 % bound

    def package(self, most: Package) -> Package:
        """Within this package, with a lot of the first category at least."""
        return (1 + self.draw(most[0]), *(self.draw(count + 1) for count in most[1:]))


def award_text() -> str:
    """The text of the award."""
    lines = ["version = 1", "tick = 1"]
    for name, supply, points, reserve in zip(NAMES, SUPPLY, POINTS, RESERVES):
        lines += [
            "",
            "[[category]]",
            f'name = "{name}"',
            f"supply = {supply}",
            f"points = {points}",
            f"reserve = {reserve}",
        ]
    for k in range(1, BIDDERS + 1):
        lines += ["", "[[bidder]]", f'name = "b{k}"', "eligibility = 73"]
    for excess, permille in STEPS:
        lines += ["", "[[step]]", f"excess = {excess}", f"permille = {permille}"]
    return "".join(line + "\n" for line in lines)


def cost(prices: Package, package: Package) -> int:
    """What a package costs at these prices."""
    return sum(price * count for price, count in zip(prices, package))


def raised(price: int, demand: int, supply: int) -> int:
    """The price of the next round, rounded up to the tick of 1."""
    permille = max((p for excess, p in STEPS if demand - supply >= excess), default=0)
    return price + -(-price * permille // 1000)


def last_prices(packages: Sequence[Package]) -> Package:
    demand = [sum(counts) for counts in zip(*packages)]
    prices: Package = RESERVES
    for _ in range(FULL_ROUNDS):
        prices = tuple(raised(*each) for each in zip(prices, demand, SUPPLY))
    return prices


def last_package(k: int, own: Package) -> Package:
    return (1, 0, min(3, own[2]), min(2, own[3])) if k <= STAYING else (0, 0, 0, 0)


def words(package: Package) -> str:
    return " ".join(map(str, package))


def sealed_lines(draws: Draws, prices: Package, k: int, own: Package) -> Iterator[str]:
    last = last_package(k, own)
    for _ in range(DRAFTS):
        package = draws.package(own)
        permille = 500 + draws.draw(501)
        amount = (
            cost(prices, package)
            if package in (own, last)
            else max(cost(RESERVES, package), cost(prices, package) * permille // 1000)
        )
        yield f"draft,b{k},{words(package)},{amount}"
    if k <= STAYING:
        yield f"draft,b{k},{words(last)},{cost(prices, last) + draws.draw(1000)}"
    yield f"submit,b{k},,"


def log_text(number: int) -> str:
    draws = Draws(number)
    packages = [draws.package((2, 1, 7, 4)) for _ in range(BIDDERS)]
    prices = last_prices(packages)
    lines = FULL_ROUNDS * ([f"bid,b{k},{words(own)}," for k, own in enumerate(packages, 1)] + ["close,,,"])
    lines += [f"bid,b{k},{words(last_package(k, packages[k - 1]))}," for k in range(1, STAYING + 1)] + ["close,,,"]
    for k, own in enumerate(packages, 1):
        lines += sealed_lines(draws, prices, k, own)
    return "".join(line + "\n" for line in lines + ["close,,,"])
